/* Two ordering tables with room for their packets: one is built while the other's picture is shown. DEPTHS and ROOM (in
   words) are set before. */
static u32 tables[2][DEPTHS], rooms[2][ROOM];
static u32 *table, *room; /* the table that is built, and the next free word */

static void begin_table(int side) {
    table = tables[side];
    room = rooms[side];
    dma_clear(table, DEPTHS);
}

/* Makes the n words at room + 1 a packet of this depth, drawn before those that are there. */
static void add(int depth, int n) {
    *room = (u32)n << 24 | (table[depth] & 0xFFFFFF);
    table[depth] = phys(room);
    room += n + 1;
}

/* A packet: ADD(depth, 0x60FFFFFF, VERT(8, 8), XY(16, 16)); */
#define ADD(depth, ...) add_words(depth, (const u32[]){__VA_ARGS__}, sizeof (const u32[]){__VA_ARGS__} / 4)
static inline void add_words(int depth, const u32 *words, int n) {
    int i;
    for (i = 0; i < n; i++) room[1 + i] = words[i];
    add(depth, n);
}

static void draw_table(void) {
    ready_dma();
    dma_list(&table[DEPTHS - 1]);
}

/* Loads cells, two a word, by DMA. */
static void upload(int x, int y, int w, int h, const u32 *words) {
    ready_command();
    SEND(0x01000000, 0xA0000000, XY(x, y), XY(w, h));
    dma_in(words, w * h / 2);
    GP1 = 0x04000000;
}
