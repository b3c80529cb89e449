// The same cases with ICU and FriBidi: after each correction the whole paragraph is resolved again.
// `others LIBRARY < TEXT` reads a direction and items as the program `levels` does, and prints a line for each case.
#include <stdint.h>
#include <stdio.h>
#include <stdlib.h>
#include <string.h>
#include <time.h>

#ifdef WITH_ICU
#include <unicode/ubidi.h>
#endif
#ifdef WITH_FRIBIDI
#include <fribidi.h>
#endif

enum { MOST = 4096, CORRECTIONS = 512, WHOLES = 16 };

static uint32_t text[MOST], made[MOST];
static int count;
static char direction;

// A character of each class, by the letter that stands for the class.
static uint32_t character(char letter) {
    switch (letter) {
    case 'L': return 'a';
    case 'R': return 0x5D0;
    case 'A': return 0x627;
    case 'E': return '1';
    case 'S': return '+';
    case 'T': return '%';
    case 'N': return 0x661;
    case 'C': return ',';
    case 'M': return 0x300;
    case 'G': return '\t';
    case 'W': return ' ';
    default: return '!';
    }
}

static void read_text(void) {
    int letter, width;
    direction = (char)getchar();
    getchar();
    while (count < MOST && (letter = getchar()) != EOF && letter != '\n' && (width = getchar()) != EOF)
        text[count++] = character((char)letter);
}

static uint64_t state;

static int below(int bound) {
    state = state * 6364136223846793005u + 1442695040888963407u;
    return bound == 0 ? 0 : (int)((state >> 33) % (uint64_t)bound);
}

static uint64_t nanos(void) {
    struct timespec now;
    clock_gettime(CLOCK_MONOTONIC, &now);
    return (uint64_t)now.tv_sec * 1000000000u + (uint64_t)now.tv_nsec;
}

static void report(const char *name, int calls, uint64_t since, uint64_t sum) {
    printf("%s\t%d\t%d\t%llu\t%llu\n", name, count, calls, (unsigned long long)(nanos() - since), (unsigned long long)sum);
}

// What a library does: resolve all of `made`, answer the level of a place; and put it in order, answer the first place.
typedef struct {
    uint64_t (*level)(int items, char direction, int place);
    uint64_t (*order)(int items, char direction);
} Library;

#ifdef WITH_ICU
static UBiDi *bidi;
static UChar units[MOST];
static int32_t map[MOST];

static void icu_resolve(int items, char direction) {
    UErrorCode code = U_ZERO_ERROR;
    UBiDiLevel base = direction == 'L' ? 0 : direction == 'R' ? 1 : UBIDI_DEFAULT_LTR;
    ubidi_setPara(bidi, units, items, base, NULL, &code);
    if (U_FAILURE(code)) exit(1);
}

static void icu_take(int from) {
    for (int i = from; i < count; i++) units[i] = (UChar)made[i];
}

static uint64_t icu_level(int items, char direction, int place) {
    UErrorCode code = U_ZERO_ERROR;
    icu_resolve(items, direction);
    return ubidi_getLevels(bidi, &code)[place];
}

static uint64_t icu_order(int items, char direction) {
    UErrorCode code = U_ZERO_ERROR;
    icu_resolve(items, direction);
    ubidi_getVisualMap(bidi, map, &code);
    return (uint64_t)map[0];
}
#endif

#ifdef WITH_FRIBIDI
static FriBidiCharType types[MOST];
static FriBidiLevel levels[MOST];
static FriBidiStrIndex places[MOST];

static void fribidi_resolve(int items, char direction) {
    FriBidiParType base = direction == 'L' ? FRIBIDI_PAR_LTR : direction == 'R' ? FRIBIDI_PAR_RTL : FRIBIDI_PAR_ON;
    fribidi_get_bidi_types(made, items, types);
    if (fribidi_get_par_embedding_levels_ex(types, NULL, items, &base, levels) == 0) exit(1);
}

static uint64_t fribidi_level(int items, char direction, int place) {
    fribidi_resolve(items, direction);
    return (uint64_t)levels[place];
}

static uint64_t fribidi_order(int items, char direction) {
    fribidi_resolve(items, direction);
    for (int i = 0; i < items; i++) places[i] = i;
    fribidi_reorder_line(0, types, items, 0, direction == 'R' ? FRIBIDI_PAR_RTL : FRIBIDI_PAR_LTR, levels, NULL, places);
    return (uint64_t)places[0];
}
#endif

static int icu;

// Takes over what changed from a place on.
static void changed(int from) {
#ifdef WITH_ICU
    if (icu) icu_take(from);
#endif
    (void)from;
}

static void corrections(Library library) {
    uint64_t sum = 0, start;
    int items = count;
    state = 20261118;
    start = nanos();
    for (int i = 0; i < CORRECTIONS; i++) {
        int place = below(count), from = below(count);
        made[place] = text[from];
#ifdef WITH_ICU
        if (icu) units[place] = (UChar)text[from];
#endif
        sum += library.level(items, direction, place);
    }
    report("replace", CORRECTIONS, start, sum);
    state = 20261118;
    start = nanos();
    for (int i = 0; i < count / 4; i++) {
        int place = below(items);
        memmove(made + place, made + place + 1, (size_t)(items - place - 1) * sizeof *made);
#ifdef WITH_ICU
        if (icu) memmove(units + place, units + place + 1, (size_t)(items - place - 1) * sizeof *units);
#endif
        items--;
        sum += library.level(items, direction, 0);
    }
    report("remove", count / 4, start, sum);
    state = 20261118;
    start = nanos();
    for (int i = 0; i < count / 4; i++) {
        int place = below(items), from = below(count);
        memmove(made + place + 1, made + place, (size_t)(items - place) * sizeof *made);
        made[place] = text[from];
#ifdef WITH_ICU
        if (icu) {
            memmove(units + place + 1, units + place, (size_t)(items - place) * sizeof *units);
            units[place] = (UChar)text[from];
        }
#endif
        items++;
        sum += library.level(items, direction, 0);
    }
    report("insert", count / 4, start, sum);
    start = nanos();
    for (int i = 0; i < WHOLES; i++) sum += library.level(items, i % 2 == 0 ? 'R' : 'L', 0);
    report("turn", WHOLES, start, sum);
}

static void questions(Library library) {
    uint64_t sum = 0, start;
    memcpy(made, text, sizeof made);
    changed(0);
    start = nanos();
    for (int i = 0; i < WHOLES; i++) sum += library.order(count, direction);
    report("order", WHOLES, start, sum);
    start = nanos();
    for (int i = 0; i < WHOLES; i++) sum += library.level(count, direction, 0);
    report("open", WHOLES, start, sum);
    state = 20261118;
    start = nanos();
    for (int i = 0; i < CORRECTIONS; i++) sum += library.level(count, direction, below(count));
    report("level", CORRECTIONS, start, sum);
}

int main(int argc, char **argv) {
    Library library = {0};
    if (argc != 2) return 2;
#ifdef WITH_ICU
    if (strcmp(argv[1], "icu") == 0) {
        library = (Library){icu_level, icu_order};
        bidi = ubidi_open();
        icu = 1;
    }
#endif
#ifdef WITH_FRIBIDI
    if (strcmp(argv[1], "fribidi") == 0) library = (Library){fribidi_level, fribidi_order};
#endif
    if (library.level == NULL) return 2;
    read_text();
    memcpy(made, text, sizeof made);
    changed(0);
    corrections(library);
    questions(library);
    return 0;
}
