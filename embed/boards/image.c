#include "image.h"

#include "board.h"

static int read_sector(void *context, uint32_t sector, uint8_t out[SECTOR_BYTES]) {
    (void)context;
    return board_read(sector, out);
}

static int write_sector(void *context, uint32_t sector, const uint8_t bytes[SECTOR_BYTES]) {
    (void)context;
    return board_write(sector, bytes);
}

static int sync_all(void *context) {
    (void)context;
    return board_sync();
}

const struct silgwyrad_device board_disk = {NULL, read_sector, write_sector, sync_all};

uint32_t sectors_for(uint16_t blocks) { return SILGWYRAD_SECTORS(blocks, 2); }

enum { OF_NO_IMAGE = 1 };

uint32_t image_sectors(void) {
    static const uint8_t name[8] = {'F', '8', '3', 'B', 'L', 'O', 'C', 'K'};
    uint8_t label[SECTOR_BYTES];
    if (board_read(0, label)) return OF_NO_IMAGE;
    for (unsigned i = 0; i < sizeof name; i++)
        if (label[i] != name[i]) return 0;
    const uint16_t blocks = (uint16_t)(label[10] | label[11] << 8);
    return label[8] == 3 ? SILGWYRAD_SECTORS(blocks, 3) : sectors_for(blocks);
}
