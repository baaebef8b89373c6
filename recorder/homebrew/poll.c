/* poll: waits for the next field by bit 31 of the status word, as libetc's VSync does on an interlaced screen: tens of
   thousands of reads a frame. 640 by 480. */
#include "psx.h"

int main(void) {
    int frame;
    GP1 = 0;
    screen(0x27, 240);
    GP1 = 0x03000000;
    area(0, 0, 639, 479);
    for (frame = 0; frame < 60; frame++) {
        const u32 field = GP1 & 0x80000000;
        ready_command();
        SEND(0x02402010, 0, XY(640, 480), 0x60FFFFFF, VERT(frame * 8, 100), XY(64, 64));
        while ((GP1 & 0x80000000) == field) ;
    }
    return 0;
}
