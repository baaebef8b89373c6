/* The GPU of the bare console: a queue of 16 words, and the status bits of psx-spx. Times are rough, and long. It draws
   nothing and reads 0, unless it is built with the machine of libpsxgpu (-DWITH_MACHINE). */
#include "bare.h"
#include "ports.h"
#include "psxgpu_capture.h"

enum { QUEUE = 16, SEGMENT = 2000, START_OF_STORE = 500, DATA = 4, AHEAD = 64 };

uint64_t now;
counts counted;
static psxgpu_capture capture;
static ports gpu;
static uint32_t queue[QUEUE], queued, cost;
static uint64_t ready_at, store_at;

#ifdef WITH_MACHINE
#include "psxgpu.h"

static psxgpu machine = PSXGPU_NONE;

static void draw(uint32_t word) { psxgpu_gp0(&machine, word); }
static void control_machine(uint32_t word) { psxgpu_gp1(&machine, word); }

static uint32_t read_machine(void) {
    uint32_t word = 0;
    psxgpu_read(&machine, &word);
    return word;
}
#else
static void draw(uint32_t word) { (void)word; }
static void control_machine(uint32_t word) { (void)word; }
static uint32_t read_machine(void) { return 0; }
#endif

int gpu_open(const char *path, uint32_t busy) {
    cost = busy;
#ifdef WITH_MACHINE
    if (psxgpu_new(&machine)) return ENOMEM;
#endif
    return psxgpu_capture_open(&capture, path);
}

int gpu_close(void) {
#ifdef WITH_MACHINE
    psxgpu_free(&machine);
#endif
    return psxgpu_capture_close(&capture);
}

void gpu_blank(void) { psxgpu_capture_frame(&capture); }

static uint32_t pop(void) {
    const uint32_t word = queue[0];
    memmove(queue, queue + 1, 4 * --queued);
    ports_gp0(&gpu, word);
    draw(word);
    return word;
}

/* How many cycles a packet takes. */
static uint32_t time_of(uint32_t first) {
    switch (first >> 29) {
    case 0: return first >> 24 == 2 ? cost : 2;
    case 2: return SEGMENT;
    case 5: case 6: return 50;
    case 7: return 2;
    default: return cost;
    }
}

/* How many words the next step takes; 0 if they are not all in the queue. */
static uint32_t step_words(void) {
    uint32_t n = 1;
    if (!queued) return 0;
    if (gpu.polyline == 1 && gpu.first >> 28 & 1 && (queue[0] & 0xF000F000) != 0x50005000) n = 2;
    else if (!gpu.data && !gpu.polyline) n = packet_words(queue[0]);
    return queued < n ? 0 : n;
}

/* Does what the GPU has done by now. While a store is open it does nothing else. */
static void work(void) {
    uint32_t n, i, first;
    while (now >= ready_at && !gpu.reads && (n = step_words())) {
        const int is_data = gpu.data > 0, is_joint = gpu.polyline;
        first = queue[0];
        for (i = 0; i < n; i++) pop();
        if (is_data) ready_at = (ready_at + AHEAD > now ? ready_at : now - AHEAD) + DATA;
        else ready_at = now + (is_joint ? SEGMENT : time_of(first));
        counted.packets += !is_data && !is_joint;
        if (gpu.reads) store_at = now + START_OF_STORE;
    }
}

uint32_t gpu_status(void) {
    int is_idle;
    work();
    is_idle = ports_idle(&gpu) && !queued && now >= ready_at;
    counted.polls++;
    return 0x00802000 | (uint32_t)is_idle << 26 | (uint32_t)(gpu.reads && now >= store_at) << 27
           | (uint32_t)(gpu.data ? !queued : (uint32_t)is_idle) << 28;
}

uint32_t gpu_read(void) {
    work();
    psxgpu_capture_read(&capture);
    counted.early += gpu.reads ? now < store_at : step_words() > 0;
    ports_read(&gpu);
    return read_machine();
}

void gpu_write(uint32_t word) {
    work();
    counted.words++;
    psxgpu_capture_gp0(&capture, word);
    if (queued == QUEUE) {
        counted.overflow++;
        return;
    }
    queue[queued++] = word;
    if (queued > counted.most) counted.most = queued;
    work();
}

void gpu_control(uint32_t word) {
    work();
    psxgpu_capture_gp1(&capture, word);
    if ((word >> 24 & 0x3F) < 2) {
        counted.lost += (!gpu.reads && step_words()) || now < ready_at;
        queued = 0;
        ready_at = now;
    }
    ports_gp1(&gpu, word);
    control_machine(word);
}
