/* The machine without a BIOS and without interrupts, for small programs that exercise the GPU. */
typedef unsigned int u32;
typedef unsigned short u16;
typedef unsigned char u8;

#define REG(a) (*(volatile u32 *)(a))
#define GP0 REG(0x1F801810)
#define GP1 REG(0x1F801814)
#define I_STAT REG(0x1F801070)
#define DPCR REG(0x1F8010F0)
#define D2_MADR REG(0x1F8010A0)
#define D2_BCR REG(0x1F8010A4)
#define D2_CHCR REG(0x1F8010A8)
#define D6_MADR REG(0x1F8010E0)
#define D6_BCR REG(0x1F8010E4)
#define D6_CHCR REG(0x1F8010E8)

/* Fields of packets. */
#define XY(x, y) ((u32)(y) << 16 | ((u32)(x) & 0xFFFF))
#define VERT(x, y) (((u32)(y) & 0x7FF) << 16 | ((u32)(x) & 0x7FF))
#define UVA(u, v, a) ((u32)(a) << 16 | (u32)(v) << 8 | (u32)(u))
#define CLUT(x, y) ((y) << 6 | (x) >> 4)
#define PAGE(x, y, depth, blend) ((x) >> 6 | ((y) >> 8 & 1) << 4 | (blend) << 5 | (depth) << 7)
#define RGB15(r, g, b) ((u32)((r) | (g) << 5 | (b) << 10))
#define WINDOW(mask_x, mask_y, x, y) (0xE2000000u | (mask_x) | (mask_y) << 5 | (x) << 10 | (y) << 15)

/* The compiler may ask for these. */
void *memcpy(void *to, const void *from, u32 n) {
    u8 *t = to;
    const u8 *f = from;
    while (n--) *t++ = *f++;
    return to;
}

void *memset(void *to, int value, u32 n) {
    u8 *t = to;
    while (n--) *t++ = (u8)value;
    return to;
}

/* Words to GP0 by the port: SEND(0x60FFFFFF, VERT(8, 8), XY(16, 16)); */
#define SEND(...) send((const u32[]){__VA_ARGS__}, sizeof (const u32[]){__VA_ARGS__} / 4)
static inline void send(const u32 *words, u32 n) {
    while (n--) GP0 = *words++;
}

static inline void ready_command(void) { while (!(GP1 & 0x04000000)) ; }
static inline void ready_read(void) { while (!(GP1 & 0x08000000)) ; }
static inline void ready_dma(void) { while (!(GP1 & 0x10000000)) ; }

static inline void vblank(void) {
    I_STAT = ~1u;
    while (!(I_STAT & 1)) ;
    I_STAT = ~1u;
}

static inline void area(int x1, int y1, int x2, int y2) {
    SEND(0xE3000000 | x1 | y1 << 10, 0xE4000000 | x2 | y2 << 10);
}

static inline void offset(int x, int y) { GP0 = 0xE5000000 | (x & 0x7FF) | (y & 0x7FF) << 11; }

/* The display's mode and ranges: 2560 cycles are the whole width. */
static inline void screen(u32 mode, int lines) {
    GP1 = 0x08000000 | mode;
    GP1 = 0x06000000 | 0x260 | (0x260 + 2560) << 12;
    GP1 = 0x07000000 | (0x88 - lines / 2) | (0x88 + lines / 2) << 10;
}

static inline u32 phys(const void *p) { return (u32)p & 0x1FFFFF; }

/* Starts channel 2 with n words (a multiple of 16, or below 16), or with a list, and waits for its end. */
static inline void channel2(const u32 *p, int n, u32 direction, u32 chcr) {
    const int block = n % 16 ? n : 16;
    GP1 = 0x04000000 | direction;
    D2_MADR = phys(p);
    D2_BCR = (u32)(n / block) << 16 | block;
    D2_CHCR = chcr;
    while (D2_CHCR & 0x01000000) ;
}

static inline void dma_in(const u32 *p, int n) { channel2(p, n, 2, 0x01000201); }
static inline void dma_out(u32 *p, int n) { channel2(p, n, 3, 0x01000200); }
static inline void dma_list(const u32 *p) { channel2(p, 0, 2, 0x01000401); }

/* Channel 6 makes an empty ordering table of n entries. */
static inline void dma_clear(u32 *table, int n) {
    D6_MADR = phys(table + n - 1);
    D6_BCR = n;
    D6_CHCR = 0x11000002;
    while (D6_CHCR & 0x01000000) ;
}
