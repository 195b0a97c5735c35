/* The image that begins the board's disk. */
#ifndef IMAGE_H
#define IMAGE_H

#include "silgwyrad.h"

/* The board's disk as a device of the library's. */
extern const struct silgwyrad_device board_disk;

/* How many sectors the image has, by its label; 0 where there is no label, and as many as no image has where it can't be read. */
uint32_t image_sectors(void);

/* How many sectors an image of layout 2 has. */
uint32_t sectors_for(uint16_t blocks);

#endif
