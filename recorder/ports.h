/* The registers that words to a GPU's two ports have set, and the packet or transfer that they have begun: the state of
   a running machine, except for its video memory, if a recording begins in its midst. */
#ifndef PORTS_H
#define PORTS_H
#include <stdint.h>
#include <string.h>

typedef struct ports {
    uint32_t settings[6];       /* the values of E1h to E6h */
    uint32_t control[9];        /* the last word of GP1(03h) to GP1(08h) since a reset; 0 if there is none */
    uint32_t first, have, need; /* of an open packet: first word, words so far, words in all; need 0: none is open */
    uint32_t data, reads;       /* words left of an open load, and of an open store */
    int polyline;               /* 0: none is open; 1: a joint or an end comes next; 2: a joint's vertex comes next */
    int interrupt;
} ports;

static inline uint32_t packet_words(uint32_t first) {
    const uint32_t shaded = first >> 28 & 1, textured = first >> 26 & 1, vertices = 3 + (first >> 27 & 1);
    switch (first >> 29) {
    case 0: return first >> 24 == 2 ? 3 : 1;
    case 1: return 1 + vertices * (1 + textured) + shaded * (vertices - 1);
    case 2: return 3 + shaded;
    case 3: return 2 + textured + (first >> 27 & 3 ? 0 : 1);
    case 4: return 4;
    case 7: return 1;
    default: return 3;
    }
}

static inline uint32_t transfer_words(uint32_t size) {
    return ((((size - 1) & 0x3FF) + 1) * (((((size >> 16) - 1) & 0x1FF)) + 1) + 1) / 2;
}

/* Applies a complete packet; `word` is its last one. */
static inline void ports_packet(ports *p, uint32_t word) {
    const uint32_t opcode = p->first >> 24;
    p->need = 0;
    if (opcode >= 0xE1 && opcode <= 0xE6) p->settings[opcode - 0xE1] = word & 0xFFFFFF;
    else if (opcode == 0x1F) p->interrupt = 1;
    else if (opcode >> 5 == 2 && opcode & 8) p->polyline = 1;
    else if (opcode >> 5 == 5) p->data = transfer_words(word);
    else if (opcode >> 5 == 6) p->reads = transfer_words(word);
}

static inline void ports_polyline(ports *p, uint32_t word) {
    if (p->polyline == 1 && (word & 0xF000F000) == 0x50005000) p->polyline = 0;
    else if (p->first >> 28 & 1) p->polyline = 3 - p->polyline;
}

static inline void ports_gp0(ports *p, uint32_t word) {
    if (p->data) {
        p->data--;
        return;
    }
    if (p->polyline) {
        ports_polyline(p, word);
        return;
    }
    if (!p->need) {
        p->first = word;
        p->need = packet_words(word);
        p->have = 0;
    }
    /* The second texture coordinate of a textured polygon brings the texture page. */
    if (p->first >> 29 == 1 && p->first >> 26 & 1 && p->have == 4 + (p->first >> 28 & 1))
        p->settings[0] = (p->settings[0] & ~0x1FFu) | (word >> 16 & 0x1FF);
    if (++p->have == p->need) ports_packet(p, word);
}

static inline void ports_gp1(ports *p, uint32_t word) {
    const uint32_t opcode = word >> 24 & 0x3F;
    if (opcode == 0) memset(p, 0, sizeof *p);
    else if (opcode == 1) p->need = p->data = p->reads = 0, p->polyline = 0;
    else if (opcode == 2) p->interrupt = 0;
    else if (opcode < 9) p->control[opcode] = word;
}

static inline void ports_read(ports *p) {
    if (p->reads) p->reads--;
}

/* No packet, load, polyline or store is open. */
static inline int ports_idle(const ports *p) { return !p->need && !p->data && !p->polyline && !p->reads; }

#endif
