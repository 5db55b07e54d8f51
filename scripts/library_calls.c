/* library_calls LEFT RIGHT SETTINGS: what a caller may do wrong or far out, and what must come of it. It prints what failed, and how many
   rows held. Rooms and texts end at a page that may not be touched, so that a byte too far ends the process.

   library_calls LEFT RIGHT SETTINGS COUNT: that many calls, over which the heap may not grow. */
#define _DEFAULT_SOURCE
#include "lathe.h"
#include <malloc.h>
#include <pthread.h>
#include <stdio.h>
#include <stdlib.h>
#include <string.h>
#include <sys/mman.h>
#include <unistd.h>

#define TEXTS(it) (it)[0].at, (it)[0].length, (it)[1].at, (it)[1].length, (it)[2].at, (it)[2].length

struct text {
    uint8_t *at;
    size_t length;
};

static int passed, failed;

static void check(const char *name, int holds) {
    if (holds) passed++;
    else {
        failed++;
        printf("library row FAILED: %s\n", name);
    }
}

/* Memory of so many bytes that ends right before a page that may not be touched. */
static uint8_t *flush(size_t size) {
    size_t page = (size_t)sysconf(_SC_PAGESIZE), whole = (size + page - 1) / page * page;
    uint8_t *at = mmap(NULL, whole + page, PROT_READ | PROT_WRITE, MAP_PRIVATE | MAP_ANONYMOUS, -1, 0);
    if (at == MAP_FAILED || mprotect(at + whole, page, PROT_NONE) != 0) exit(1);
    return at + whole - size;
}

static struct text of_file(const char *name) {
    struct text it = {NULL, 0};
    FILE *file = fopen(name, "rb");
    static uint8_t bytes[1 << 22];
    if (file == NULL) exit(13);
    it.length = fread(bytes, 1, sizeof bytes, file);
    fclose(file);
    it.at = flush(it.length);
    memcpy(it.at, bytes, it.length);
    return it;
}

typedef uint8_t (*plain_call)(const uint8_t *, size_t, const uint8_t *, size_t, const uint8_t *, size_t, uint8_t *, size_t, size_t *);

/* A call of a text, with each room from 0 to one byte more than the whole. */
static void try_rooms(const char *name, plain_call call, const struct text *texts) {
    size_t length = 0, again = 0;
    uint8_t status = call(TEXTS(texts), NULL, 0, &length);
    uint8_t *whole = malloc(length + 1);
    call(TEXTS(texts), whole, length, &again);
    check(name, again == length && length > 0);
    size_t step = length > 400 ? length / 97 : 1;
    for (size_t size = 0; size <= length + 1; size += step) {
        uint8_t *room = flush(size + 1);
        memset(room, '.', size + 1);
        int is_same = call(TEXTS(texts), room, size, &again) == status && again == length;
        size_t put = size < length ? size : length;
        check(name, is_same && memcmp(room, whole, put) == 0 && room[size] == '.');
    }
    free(whole);
}

/* The calls of one tape, over texts as the others take them: the tape is the first, the settings the last. */
static uint8_t expand_of(const uint8_t *tape, size_t tape_length, const uint8_t *right, size_t right_length,
    const uint8_t *settings, size_t settings_length, uint8_t *room, size_t size, size_t *length) {
    (void)right, (void)right_length, (void)settings, (void)settings_length;
    return lathe_expand(tape, tape_length, room, size, length);
}

static uint8_t plain_of(const uint8_t *tape, size_t tape_length, const uint8_t *right, size_t right_length,
    const uint8_t *settings, size_t settings_length, uint8_t *room, size_t size, size_t *length) {
    (void)right, (void)right_length;
    return lathe_plain(tape, tape_length, settings, settings_length, room, size, length);
}

/* The zones of a pair, of a text that asks for them. */
static uint8_t zones_of(const uint8_t *left, size_t left_length, const uint8_t *right, size_t right_length,
    const uint8_t *settings, size_t settings_length, uint8_t *room, size_t size, size_t *length) {
    static const char zones[] = "gap X5. Z5.\n";
    return lathe_zones(left, left_length, right, right_length, settings, settings_length, (const uint8_t *)zones, sizeof zones - 1, 900, room, size, length);
}

/* What may be wrong with a text of zones. */
static void try_zones(const struct text *texts) {
    struct text none[3] = {{NULL, 0}, {NULL, 0}, {NULL, 0}};
    size_t length = 7;
    uint8_t room[64], *long_zones = flush(65537);
    memset(long_zones, '%', 65537);
    check("zones: none", lathe_zones(TEXTS(texts), NULL, 0, 900, NULL, 0, &length) == LATHE_DONE && length > 0);
    check("zones: a limit of 0", lathe_zones(TEXTS(texts), NULL, 0, 0, room, sizeof room, &length) == LATHE_DONE && length > 0);
    check("zones: no texts", lathe_zones(TEXTS(none), NULL, 0, 900, NULL, 0, &length) == LATHE_REFUSED && length > 0);
    check("zones: bad ones", lathe_zones(TEXTS(texts), (const uint8_t *)"gap", 3, 900, room, sizeof room, &length) == LATHE_REFUSED && length > 0);
    check("zones: bad ones come first", lathe_zones(TEXTS(none), (const uint8_t *)"gap", 3, 9, room, sizeof room, &length) == LATHE_REFUSED &&
        memcmp(room, "refused 92", 10) == 0);
    check("zones: a length of SIZE_MAX", lathe_zones(TEXTS(texts), NULL, SIZE_MAX, 900, NULL, 0, &length) == LATHE_TOO_LONG && length == 0);
    check("zones: one byte too long", lathe_zones(TEXTS(texts), long_zones, 65537, 900, NULL, 0, &length) == LATHE_TOO_LONG && length == 0);
    check("zones: as long as may be", lathe_zones(TEXTS(texts), long_zones + 1, 65536, 900, NULL, 0, &length) == LATHE_REFUSED && length > 0);
    try_rooms("a room for zones", zones_of, texts);
}

/* What may be wrong with one tape and its settings. */
static void try_tape(const struct text *texts) {
    size_t length = 7, most = 4194304;
    uint8_t room[64], *long_tape = flush(most + 1), *long_settings = flush(65537);
    memset(long_tape, '%', most + 1);
    memset(long_settings, '%', 65537);
    check("expand: no tape", lathe_expand(NULL, 0, room, sizeof room, &length) == LATHE_REFUSED && length > 0);
    check("expand: no tape and no room", lathe_expand(NULL, 0, NULL, 0, &length) == LATHE_REFUSED && length > 0);
    check("expand: a length of SIZE_MAX", lathe_expand(texts[0].at, SIZE_MAX, room, sizeof room, &length) == LATHE_TOO_LONG && length == 0);
    check("expand: one byte too long", lathe_expand(long_tape, most + 1, room, sizeof room, &length) == LATHE_TOO_LONG && length == 0);
    check("expand: as long as may be", lathe_expand(long_tape + 1, most, room, sizeof room, &length) == LATHE_REFUSED && length > 0);
    check("plain: no texts", lathe_plain(NULL, 0, NULL, 0, room, sizeof room, &length) == LATHE_REFUSED && length > 0);
    check("plain: no texts and no room", lathe_plain(NULL, 0, NULL, 0, NULL, 0, &length) == LATHE_REFUSED && length > 0);
    check("plain: no settings", lathe_plain(texts[0].at, texts[0].length, NULL, 0, NULL, 0, &length) == LATHE_DONE && length > 0);
    check("plain: a length of SIZE_MAX", lathe_plain(texts[0].at, SIZE_MAX, NULL, 0, NULL, 0, &length) == LATHE_TOO_LONG && length == 0);
    check("plain: settings of SIZE_MAX", lathe_plain(texts[0].at, texts[0].length, NULL, SIZE_MAX, NULL, 0, &length) == LATHE_TOO_LONG);
    check("plain: one byte too long", lathe_plain(long_tape, most + 1, NULL, 0, NULL, 0, &length) == LATHE_TOO_LONG && length == 0);
    check("plain: as long as may be", lathe_plain(long_tape + 1, most, NULL, 0, room, sizeof room, &length) == LATHE_REFUSED && length > 0);
    check("plain: settings too long", lathe_plain(texts[0].at, texts[0].length, long_settings, 65537, NULL, 0, &length) == LATHE_TOO_LONG);
    check("plain: settings as long as may be",
        lathe_plain(texts[0].at, texts[0].length, long_settings + 1, 65536, room, sizeof room, &length) == LATHE_REFUSED && length > 0);
    check("plain: one text twice",
        lathe_plain(texts[0].at, texts[0].length, texts[0].at, texts[0].length, room, sizeof room, &length) == LATHE_REFUSED);
    try_rooms("a room for expand", expand_of, texts);
    try_rooms("a room for plain", plain_of, texts);
}

static void try_words(void) {
    uint8_t room[512];
    check("the version of the library is that of the header", lathe_version() == LATHE_VERSION);
    check("number 72", lathe_name(72, room, sizeof room) == 12 && memcmp(room, "WaitMismatch", 12) == 0);
    check("a short room", lathe_name(72, room, 0) == 12 && lathe_name(72, NULL, 0) == 12);
    check("no such number", lathe_name(0, room, 9) == 0 && lathe_name(7, room, 9) == 0 && lathe_name(300, room, 9) == 0 &&
        lathe_name(65535, room, 9) == 0 && lathe_meaning(7, room, 9) == 0 && lathe_meaning(328, room, 9) == 0);
    for (uint16_t number = 0; number < 1000; number++) {
        size_t length = lathe_meaning(number, room, sizeof room);
        check("a number with a name has a meaning", (length == 0) == (lathe_name(number, room, 0) == 0) && length <= sizeof room);
    }
}

/* NULL with 0, lengths that no text has, and the order of the statuses. */
static void try_misuse(const struct text *texts) {
    struct text none[3] = {{NULL, 0}, {NULL, 0}, {NULL, 0}}, huge[3], longer[3];
    uint8_t room[64], order[2] = {1, 3};
    size_t length = 7;
    struct lathe_refusal refusal;
    check("no texts", lathe_verify(TEXTS(none), room, sizeof room, &length) == LATHE_REFUSED && length > 0);
    check("no texts and no room", lathe_verify(TEXTS(none), NULL, 0, &length) == LATHE_REFUSED && length > 0);
    check("no texts: judge", lathe_judge(TEXTS(none), &refusal) == LATHE_REFUSED && refusal.number == 13 && refusal.nothing == 0);
    check("no texts: events", lathe_events(TEXTS(none), NULL, 0, NULL, 0, &length) == LATHE_REFUSED && length == 0);
    for (int k = 0; k < 3; k++) {
        memcpy(huge, texts, sizeof huge);
        huge[k].length = SIZE_MAX;
        check("a length of SIZE_MAX", lathe_verify(TEXTS(huge), room, sizeof room, &length) == LATHE_TOO_LONG && length == 0);
        check("a length of SIZE_MAX: judge", lathe_judge(TEXTS(huge), &refusal) == LATHE_TOO_LONG && refusal.number == 0 && refusal.line == 0);
        memcpy(longer, texts, sizeof longer);
        longer[k].length = k < 2 ? 4194305 : 65537;
        longer[k].at = flush(longer[k].length);
        memset(longer[k].at, '%', longer[k].length);
        check("one byte too long", lathe_run(TEXTS(longer), 9, room, sizeof room, &length) == LATHE_TOO_LONG && length == 0);
        longer[k].at++;
        longer[k].length--;
        check("as long as may be", lathe_run(TEXTS(longer), 9, room, sizeof room, &length) == LATHE_REFUSED && length > 0);
        memcpy(huge, none, sizeof huge);
        huge[k].length = SIZE_MAX;
        check("13 before 2", lathe_events(TEXTS(huge), order, 2, NULL, 0, &length) == LATHE_TOO_LONG);
    }
    check("2 before 1", lathe_events(TEXTS(none), order, 2, NULL, 0, &length) == LATHE_ORDER && length == 0);
    check("one text three times", lathe_verify(texts[0].at, texts[0].length, texts[0].at, texts[0].length, texts[0].at, texts[0].length, room, 64, &length) == LATHE_REFUSED);
    check("a limit of 0", lathe_run(TEXTS(texts), 0, NULL, 0, &length) == LATHE_STOPPED && length > 0);
    check("the greatest limit", lathe_run(TEXTS(texts), UINT32_MAX, NULL, 0, &length) == LATHE_DONE && length > 0);
}

static const struct text *shared;
static uint8_t due_status;
static size_t due_length;

/* What each thread does: a trace and a verdict, again and again, which must be the same each time. */
static void *work(void *rounds) {
    uint8_t *room = malloc(due_length);
    struct lathe_refusal refusal;
    size_t length;
    for (int k = 0; k < *(int *)rounds; k++) {
        if (lathe_trace(TEXTS(shared), 500, room, due_length, &length) != due_status || length != due_length) return room;
        if (lathe_judge(TEXTS(shared), &refusal) != LATHE_DONE) return room;
    }
    free(room);
    return NULL;
}

/* So many threads at once, each with so much stack. */
static void try_threads(const char *name, int count, size_t stack, int rounds) {
    pthread_t threads[8];
    pthread_attr_t how;
    pthread_attr_init(&how);
    pthread_attr_setstacksize(&how, stack);
    for (int k = 0; k < count; k++)
        if (pthread_create(&threads[k], &how, work, &rounds) != 0) exit(1);
    for (int k = 0; k < count; k++) {
        void *left;
        pthread_join(threads[k], &left);
        check(name, left == NULL);
    }
}

/* The heap in use, in bytes. */
static size_t in_use(void) { return mallinfo2().uordblks; }

/* So many calls; the heap is as large as after the first tenth of them, but for what the heap keeps in its own caches. */
static void try_many(const struct text *texts, long count) {
    static uint8_t room[1 << 16], order[64];
    size_t length, before = 0;
    struct lathe_refusal refusal;
    memset(order, 1, sizeof order);
    for (long k = 0; k < count; k++) {
        if (k == count / 10) before = in_use();
        switch (k % 9) {
            case 0: lathe_verify(TEXTS(texts), room, sizeof room, &length); break;
            case 1: lathe_judge(TEXTS(texts), &refusal); break;
            case 2: lathe_run(TEXTS(texts), 40, room, sizeof room, &length); break;
            case 3: lathe_waits(TEXTS(texts), 1, 0, room, sizeof room, &length); break;
            case 4: lathe_races(TEXTS(texts), room, sizeof room, &length); break;
            case 5: lathe_expand(texts[0].at, texts[0].length, room, sizeof room, &length); break;
            case 7: zones_of(TEXTS(texts), room, sizeof room, &length); break;
            case 6: lathe_plain(texts[0].at, texts[0].length, texts[2].at, texts[2].length, room, sizeof room, &length); break;
            default: lathe_events(TEXTS(texts), order, sizeof order, (struct lathe_event *)(void *)room, 900, &length);
        }
    }
    check("the heap does not grow", in_use() <= before + (64 << 10));
}

int main(int count, char **words) {
    struct text texts[3];
    if (count < 4) return 2;
    for (int k = 0; k < 3; k++) texts[k] = of_file(words[k + 1]);
    if (count > 4) try_many(texts, atol(words[4]));
    else {
        try_words();
        try_misuse(texts);
        try_tape(texts);
        try_zones(texts);
        try_rooms("a room for the verdict", lathe_verify, texts);
        try_rooms("a room for the races", lathe_races, texts);
        shared = texts;
        due_status = lathe_trace(TEXTS(texts), 500, NULL, 0, &due_length);
        try_threads("eight threads at once", 8, 1 << 20, 40);
        try_threads("a thread with 400 KiB of stack", 1, 400 << 10, 2);
    }
    printf("%d passed, %d failed\n", passed, failed);
    return failed != 0;
}
