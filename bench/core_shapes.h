/* The shapes of bench/core: the same as in crates/nt_bench, call by call. What includes this has a struct core and the calls on it. */

/* One call: `n` is what is released, or the object that a swap waits for. */
enum ask { MAKE, SET, PULSE, RELEASE, UNLOCK, WAIT, SWAP };
struct turn {
    enum ask ask;
    uint32_t who, object;
    int32_t n;
    uint32_t count, ms;
    bool all, alertable;
    uint32_t one;
    const uint32_t *handles;
    const struct object *made;
};
struct shape {
    const char *name;
    uint32_t threads, prepared, turns;
    struct turn *prepare, *round;
};

static int carry_out(struct core *c, const struct turn *a) {
    switch (a->ask) {
    case MAKE: return make(c, a->who, *a->made);
    case SET: return set(c, a->who, a->object);
    case PULSE: return pulse(c, a->who, a->object);
    case RELEASE: return release(c, a->who, a->object, a->n);
    case UNLOCK: return unlock(c, a->who, a->object);
    case WAIT: return wait(c, a->who, a->count == 1 ? &a->one : a->handles, a->count, a->all, a->ms, a->alertable);
    case SWAP: return swap(c, a->who, a->object, (uint32_t)a->n, UINT32_MAX, a->alertable);
    }
    return REFUSED;
}

static void prepare(struct shape *s, uint32_t who, struct object made) {
    s->prepare[s->prepared++] = (struct turn){.ask = MAKE, .who = who, .made = memcpy(room(1, sizeof made), &made, sizeof made)};
}
static void events(struct shape *s, uint32_t n) {
    while (n--) prepare(s, 0, (struct object){.kind = EVENT, .owner = NOBODY});
}
static void then(struct shape *s, enum ask ask, uint32_t who, uint32_t object, int32_t n) {
    s->round[s->turns++] = (struct turn){.ask = ask, .who = who, .object = object, .n = n};
}
static void waits(struct shape *s, uint32_t who, uint32_t first, uint32_t count, bool all, uint32_t ms) {
    struct turn *a = &s->round[s->turns++];
    *a = (struct turn){.ask = WAIT, .who = who, .count = count, .all = all, .ms = ms};
    uint32_t *list = room(MOST, sizeof *list);
    a->one = first;
    for (uint32_t i = 0; i < count; i++) list[i] = first + i;
    a->handles = list;
}

static void begin_each(struct shape *s, uint32_t first, uint32_t end, uint32_t object) {
    for (uint32_t t = first; t < end; t++)
        s->prepare[s->prepared++] = (struct turn){.ask = WAIT, .who = t, .count = 1, .ms = UINT32_MAX, .one = object};
}

static void fill(struct shape *s, int which) {
    *s = (struct shape){.prepare = room(64, sizeof(struct turn)), .round = room(256, sizeof(struct turn))};
    switch (which) {
    case 0:
        s->name = "set, wait(0)";
        s->threads = 1;
        events(s, 1);
        then(s, SET, 0, 1, 0);
        waits(s, 0, 1, 1, false, 0);
        break;
    case 1:
        s->name = "wait, set";
        s->threads = 2;
        events(s, 1);
        waits(s, 0, 2, 1, false, UINT32_MAX);
        then(s, SET, 1, 2, 0);
        break;
    case 2:
        s->name = "wait for any of 64, set the last";
        s->threads = 2;
        events(s, 64);
        waits(s, 0, 2, 64, false, UINT32_MAX);
        then(s, SET, 1, 65, 0);
        break;
    case 3:
        s->name = "wait for all of 64, set each";
        s->threads = 2;
        events(s, 64);
        waits(s, 0, 2, 64, true, UINT32_MAX);
        for (uint32_t h = 2; h < 66; h++) then(s, SET, 1, h, 0);
        break;
    case 4:
        s->name = "255 waits, one pulse";
        s->threads = 256;
        prepare(s, 0, (struct object){.kind = EVENT, .manual = true, .owner = NOBODY});
        for (uint32_t t = 1; t < 256; t++) waits(s, t, 256, 1, false, UINT32_MAX);
        then(s, PULSE, 0, 256, 0);
        break;
    case 5:
        s->name = "8 waits, release by 8";
        s->threads = 9;
        prepare(s, 0, (struct object){.kind = SEMAPHORE, .maximum = 8, .owner = NOBODY});
        for (uint32_t t = 1; t < 9; t++) waits(s, t, 9, 1, false, UINT32_MAX);
        then(s, RELEASE, 0, 9, 8);
        break;
    case 7:
        s->name = "wait, signal and wait, set";
        s->threads = 2;
        events(s, 2);
        waits(s, 0, 2, 1, false, UINT32_MAX);
        then(s, SWAP, 1, 2, 3);
        then(s, SET, 0, 3, 0);
        break;
    case 6:
        s->name = "a mutex to and fro";
        s->threads = 2;
        prepare(s, 0, (struct object){.kind = MUTEX, .owner = 0, .depth = 1});
        waits(s, 1, 2, 1, false, UINT32_MAX);
        then(s, UNLOCK, 0, 2, 0);
        waits(s, 0, 2, 1, false, UINT32_MAX);
        then(s, UNLOCK, 1, 2, 0);
        break;
    case 8:
        s->name = "wait for a free mutex, release it";
        s->threads = 1;
        prepare(s, 0, (struct object){.kind = MUTEX, .owner = NOBODY});
        waits(s, 0, 1, 1, false, 0);
        then(s, UNLOCK, 0, 1, 0);
        break;
    case 9:
        s->name = "release a semaphore, wait(0)";
        s->threads = 1;
        prepare(s, 0, (struct object){.kind = SEMAPHORE, .maximum = 1, .owner = NOBODY});
        then(s, RELEASE, 0, 1, 1);
        waits(s, 0, 1, 1, false, 0);
        break;
    case 10:
        s->name = "wait(0) for any of 64, none set";
        s->threads = 1;
        events(s, 64);
        waits(s, 0, 1, 64, false, 0);
        break;
    case 11:
        s->name = "63 waits for one event, set in turn";
        s->threads = 64;
        events(s, 1);
        begin_each(s, 1, 64, 64);
        for (uint32_t t = 1; t < 64; t++) {
            then(s, SET, 0, 64, 0);
            waits(s, t, 64, 1, false, UINT32_MAX);
        }
        break;
    case 12:
        s->name = "63 waits for one mutex, passed on";
        s->threads = 64;
        prepare(s, 0, (struct object){.kind = MUTEX, .owner = 0, .depth = 1});
        begin_each(s, 1, 64, 64);
        for (uint32_t t = 0; t < 64; t++) {
            then(s, UNLOCK, t, 64, 0);
            waits(s, t, 64, 1, false, UINT32_MAX);
        }
        break;
    }
}

static void run(struct shape *s, uint64_t rounds, bool timed) {
    struct core c = open_core(s->threads);
    for (uint32_t i = 0; i < s->prepared; i++)
        if (carry_out(&c, &s->prepare[i]) == REFUSED) exit(1);
    struct timespec from, to;
    uint64_t grants = 0;
    clock_gettime(CLOCK_MONOTONIC, &from);
    for (uint64_t r = 0; r < rounds; r++)
        for (uint32_t i = 0; i < s->turns; i++) {
            if (carry_out(&c, &s->round[i]) == REFUSED) exit(1);
            grants += c.grants;
        }
    clock_gettime(CLOCK_MONOTONIC, &to);
    uint64_t calls = rounds * s->turns;
    uint64_t took = (uint64_t)(to.tv_sec - from.tv_sec) * 1000000000u + (uint64_t)to.tv_nsec - (uint64_t)from.tv_nsec;
    printf("%s: %llu calls, %llu grants", s->name, (unsigned long long)calls, (unsigned long long)grants);
    if (timed) printf(", %llu ps a call", (unsigned long long)(took * 1000 / (calls ? calls : 1)));
    printf("\n");
    close_core(&c);
}

int main(int argc, char **argv) {
    uint64_t rounds = argc > 1 ? strtoull(argv[1], NULL, 10) : 3;
    for (int which = 0; which < 13; which++) {
        if (argc > 2 && which != atoi(argv[2])) continue;
        struct shape s;
        fill(&s, which);
        run(&s, rounds, argc > 1);
        free(s.prepare);
        free(s.round);
    }
    return 0;
}
