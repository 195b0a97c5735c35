/* A first firmware: it counts the board's starts, in two blocks that are saved together, so that a loss of power leaves both numbers old or
 * both new. */
#include "board.h"
#include "console.h"
#include "image.h"

enum { DEVICE = 1, BLOCKS = 32 };

static uint8_t bytes[2][SILGWYRAD_BLOCK];
static const uint16_t both[2] = {0, 1};

int main(void) {
    uint32_t sectors = image_sectors();
    uint8_t answer = SILGWYRAD_DONE;
    silgwyrad_use_device(DEVICE, &board_disk);
    if (!sectors) answer = silgwyrad_format(DEVICE, sectors = sectors_for(BLOCKS), BLOCKS);
    for (unsigned i = 0; i < 2 && !answer; i++) answer = silgwyrad_read(DEVICE, sectors, both[i], bytes[i], SILGWYRAD_BLOCK);
    /* Blocks that were never saved are blanks. */
    if (bytes[0][1] == ' ') bytes[0][0] = bytes[0][1] = bytes[1][0] = 0;
    bytes[0][0]++;
    bytes[1][0]++;
    if (!answer) answer = silgwyrad_save(DEVICE, sectors, both, 2, bytes[0], sizeof bytes);
    say("start ");
    say_number(bytes[0][0]);
    say(" and ");
    say_number(bytes[1][0]);
    say(", answer ");
    say_number(answer);
    say("\n");
    return answer;
}
