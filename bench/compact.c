/* Times compaction, the purge question and the questions for the line that decides against plain C by gcc -O3 and clang -O3 and against memmove of as many bytes: in turn, best of many rounds. */
#include "frames.h"
#include "plain_compact.h"
#include "quayrudder.h"
#include "turns.h"
#include <stdio.h>
#include <stdlib.h>
#include <string.h>

/* Short ledgers are timed several together, so that the clock's own time does not count. */
enum { LINE = 16, FEWEST = 64, TOGETHER = 1024, WHY_LINES = 4096, ROUNDS = 1000 };

typedef struct {
    uint32_t year, month, day;
} date;

/* What is known of a ledger from its filling: how many lines stand, its last standing keep date with the line's number, the pixel of the first standing correction with the
   number of the last one of it that stands, and a pixel of which none stands. */
typedef struct {
    uint64_t left, keep_line, early, early_line, opened;
    date kept;
} known;

/* So many ledgers of so many lines, one behind the other: as filled, as compaction has to leave them, and as lent to a call. */
typedef struct {
    size_t lines, count;
    uint8_t *filled, *compacted, *lent;
    known known[TOGETHER / FEWEST];
} ledgers;

static size_t bytes_of(const ledgers *l) {
    return LINE * l->lines * l->count;
}

static void put_line(uint8_t *line, uint64_t first, uint64_t second) {
    for (int i = 0; i < 8; i++) line[i] = (uint8_t)(first >> (56 - 8 * i)), line[8 + i] = (uint8_t)(second >> (56 - 8 * i));
}

static void put_date(uint8_t *line, uint64_t year, uint64_t month, uint64_t day) {
    put_line(line, 1ull << 62 | year << 50 | month << 46 | day << 41, 0);
}

/* A date whose next day is in the same month. */
static void put_keep(uint8_t *line) {
    put_date(line, 1990 + rnd() % 90, 1 + rnd() % 12, 1 + rnd() % 27);
}

static void put_withdrawal(uint8_t *line) {
    put_line(line, 2ull << 62, 0);
}

static void put_correction(uint8_t *line) {
    uint64_t pixel = rnd() % (1 << 24), old = rnd(), new = rnd();
    put_line(line, pixel << 17 | old >> 15, old << 49 | new << 17);
}

/* One ledger, a keep line first that always stands, then `withdrawals` in 100 lines and of the others a seventh keep lines. Its standing lines are put beside it as they
   come and go, and their numbers. The answer: how many stand. */
static uint64_t fill(uint8_t *ledger, uint8_t *compacted, uint64_t *numbers, size_t lines, unsigned withdrawals) {
    uint64_t left = 0;
    for (size_t i = 0; i < lines; i++) {
        uint8_t *line = ledger + LINE * i;
        if (left > 1 && rnd() % 100 < withdrawals) {
            put_withdrawal(line);
            memset(compacted + LINE * --left, 0, LINE);
            continue;
        }
        if (i == 0 || rnd() % 7 == 0) put_keep(line);
        else put_correction(line);
        numbers[left] = i + 1;
        memcpy(compacted + LINE * left++, line, LINE);
    }
    return left;
}

static date date_of(const uint8_t *line) {
    return (date){ (line[0] & 63u) << 6 | line[1] >> 2, (line[1] & 3u) << 2 | line[2] >> 6, line[2] >> 1 & 31 };
}

static uint64_t pixel_of(const uint8_t *line) {
    return (uint64_t)(line[2] & 1) << 23 | line[3] << 15 | line[4] << 7 | line[5] >> 1;
}

/* The place behind the last correction of this pixel among standing lines, or 0. */
static uint64_t last_of(const uint8_t *standing, uint64_t left, uint64_t pixel) {
    while (left > 0 && (standing[LINE * (left - 1)] >> 6 != 0 || pixel_of(standing + LINE * (left - 1)) != pixel)) left--;
    return left;
}

/* From the standing lines and their numbers. The first of them is a keep line. */
static known know(const uint8_t *standing, const uint64_t *numbers, uint64_t left) {
    known k = { .left = left };
    uint64_t keep = left - 1, first = 0;
    while (standing[LINE * keep] >> 6 != 1) keep--;
    while (first < left && standing[LINE * first] >> 6 != 0) first++;
    if (first < left) k.early = pixel_of(standing + LINE * first), k.early_line = numbers[last_of(standing, left, k.early) - 1];
    while (last_of(standing, left, k.opened) > 0) k.opened++;
    k.kept = date_of(standing + LINE * keep), k.keep_line = numbers[keep];
    return k;
}

static ledgers make_ledgers(size_t lines, unsigned withdrawals) {
    ledgers l = { .lines = lines, .count = lines < TOGETHER ? TOGETHER / lines : 1 };
    uint64_t *numbers = malloc(lines * sizeof *numbers);
    l.filled = malloc(bytes_of(&l)), l.compacted = calloc(bytes_of(&l), 1), l.lent = malloc(bytes_of(&l));
    for (size_t k = 0; k < l.count; k++) {
        uint8_t *compacted = l.compacted + LINE * lines * k;
        uint64_t left = fill(l.filled + LINE * lines * k, compacted, numbers, lines, withdrawals);
        l.known[k] = know(compacted, numbers, left);
    }
    free(numbers);
    return l;
}

static void free_ledgers(ledgers *l) {
    free(l->filled), free(l->compacted), free(l->lent);
}

/* By plain C or the library. The answer: the refusal. */
static int compact_by(int who, uint8_t *ledger, size_t length, uint64_t *lines) {
    if (who == 0) return gcc_compact(ledger, length, lines);
    if (who == 1) return clang_compact(ledger, length, lines);
    qr_ledger_answer answer = qr_compact(ledger, length, *lines);
    *lines = answer.lines;
    return (int)answer.refusal;
}

static int may_purge_by(int who, const uint8_t *ledger, size_t length, uint64_t lines, date d) {
    if (who == 0) return gcc_may_purge(ledger, length, lines, d.year, d.month, d.day);
    if (who == 1) return clang_may_purge(ledger, length, lines, d.year, d.month, d.day);
    return (int)qr_may_purge(ledger, length, lines, d.year, d.month, d.day);
}

static qr_why_answer why_day_by(int who, const uint8_t *ledger, size_t length, uint64_t lines, date d) {
    qr_why_answer answer = { 0, 0 };
    if (who == 2) return qr_why_day(ledger, length, lines, d.year, d.month, d.day);
    if (who == 0) answer.refusal = (uint32_t)gcc_why_day(ledger, length, lines, d.year, d.month, d.day, &answer.line);
    else answer.refusal = (uint32_t)clang_why_day(ledger, length, lines, d.year, d.month, d.day, &answer.line);
    return answer;
}

static qr_why_answer why_pixel_by(int who, const uint8_t *ledger, size_t length, uint64_t lines, uint64_t pixel) {
    qr_why_answer answer = { 0, 0 };
    if (who == 2) return qr_why_pixel(ledger, length, lines, pixel);
    if (who == 0) answer.refusal = (uint32_t)gcc_why_pixel(ledger, length, lines, pixel, &answer.line);
    else answer.refusal = (uint32_t)clang_why_pixel(ledger, length, lines, pixel, &answer.line);
    return answer;
}

/* Ledger k once by this side, in this round. The answer: whether it was wrong. */
typedef int call(int who, const ledgers *l, size_t k, int round);

static int compact_one(int who, const ledgers *l, size_t k, int round) {
    size_t length = LINE * l->lines;
    uint64_t lines = l->lines;
    (void)round;
    if (who < 3) return compact_by(who, l->lent + length * k, length, &lines) != 0 || lines != l->known[k].left;
    memmove(l->lent + length * k, l->filled + length * k, length);
    return 0;
}

/* Asked for the last keep date and, in every second round, for the day after. */
static int ask_one(int who, const ledgers *l, size_t k, int round) {
    size_t length = LINE * l->lines;
    date d = l->known[k].kept;
    if (who == 3) return compact_one(who, l, k, round);
    d.day += round % 2;
    return may_purge_by(who, l->lent + length * k, length, l->lines, d) != (round % 2 ? 0 : 27);
}

static int why_day_one(int who, const ledgers *l, size_t k, int round) {
    size_t length = LINE * l->lines;
    date d = l->known[k].kept;
    if (who == 3) return compact_one(who, l, k, round);
    d.day += round % 2;
    qr_why_answer answer = why_day_by(who, l->lent + length * k, length, l->lines, d);
    return answer.refusal != (round % 2 ? 0 : 27) || answer.line != l->known[k].keep_line;
}

static int why_pixel_one(int who, const ledgers *l, size_t k, uint64_t pixel, uint64_t line) {
    size_t length = LINE * l->lines;
    if (who == 3) return compact_one(who, l, k, 0);
    qr_why_answer answer = why_pixel_by(who, l->lent + length * k, length, l->lines, pixel);
    return answer.refusal != 0 || answer.line != line;
}

static int why_early_one(int who, const ledgers *l, size_t k, int round) {
    (void)round;
    return why_pixel_one(who, l, k, l->known[k].early, l->known[k].early_line);
}

static int why_opened_one(int who, const ledgers *l, size_t k, int round) {
    (void)round;
    return why_pixel_one(who, l, k, l->known[k].opened, 0);
}

static double timed(call *one, int who, const ledgers *l, int round, int *wrong) {
    double t = now();
    for (size_t k = 0; k < l->count; k++) *wrong |= one(who, l, k, round);
    return now() - t;
}

/* Each side once, on ledgers as filled; in the first round what it leaves is compared. The answer: whether any was wrong. */
static int turn(call *one, const ledgers *l, const uint8_t *expected, int round, double best[4]) {
    int wrong = 0;
    for (int who = 0; who < 4; who++) {
        memcpy(l->lent, l->filled, bytes_of(l));
        double t = timed(one, who, l, round, &wrong);
        if (t < best[who]) best[who] = t;
        if (round == 0 && who < 3) wrong |= memcmp(l->lent, expected, bytes_of(l)) != 0;
    }
    return wrong;
}

static void row(const char *name, call *one, const ledgers *l, const uint8_t *expected) {
    double best[4] = { 1e9, 1e9, 1e9, 1e9 };
    int wrong = 0;
    for (int round = 0; round < ROUNDS && !wrong; round++) wrong = turn(one, l, expected, round, best);
    print_best(name, (unsigned)l->lines, best, l->lines * l->count, wrong);
}

typedef struct {
    uint64_t purge, day, day_line, pixel, pixel_line, refusal, lines;
    uint8_t bytes[LINE * FEWEST];
} judgement;

/* What is asked of a spoiled ledger. */
typedef struct {
    date day;
    uint64_t pixel;
} question;

/* Every call by one side on a copy of a ledger of 64 lines, of which so many are claimed. */
static judgement judge(int who, const uint8_t *ledger, uint64_t claimed, question q) {
    judgement j = { .lines = claimed };
    memcpy(j.bytes, ledger, sizeof j.bytes);
    j.purge = (uint64_t)may_purge_by(who, j.bytes, sizeof j.bytes, claimed, q.day);
    qr_why_answer day = why_day_by(who, j.bytes, sizeof j.bytes, claimed, q.day), pixel = why_pixel_by(who, j.bytes, sizeof j.bytes, claimed, q.pixel);
    j.day = day.refusal, j.day_line = day.line, j.pixel = pixel.refusal, j.pixel_line = pixel.line;
    j.refusal = (uint64_t)compact_by(who, j.bytes, sizeof j.bytes, &j.lines);
    return j;
}

static int judged_alike(const uint8_t *ledger, uint64_t claimed, question q) {
    judgement gcc = judge(0, ledger, claimed, q), clang = judge(1, ledger, claimed, q), ours = judge(2, ledger, claimed, q);
    return !memcmp(&gcc, &ours, sizeof ours) && !memcmp(&clang, &ours, sizeof ours);
}

/* A withdrawal, or a keep line of any date or none, 29 February and full centuries among them. */
static void put_other(uint8_t *line, int is_withdrawal) {
    if (is_withdrawal) put_withdrawal(line);
    else put_date(line, rnd() % 2 ? rnd() % 4096 : rnd() % 41 * 100, rnd() % 2 ? 2 : rnd() % 16, rnd() % 32);
}

/* Line bit / 128 of the ledger is changed, first this bit of it and then all of it. The answer: whether all judge it alike, for the whole ledger and some
   number of lines, and asked for some day of d's month or for none, and for the pixel of a line, in every fourth ledger with a higher bit set. */
static int spoiled_alike(uint8_t *ledger, size_t bit, date d) {
    uint8_t *line = ledger + LINE * (bit / (8 * LINE)), saved[LINE];
    uint64_t claimed = bit % (FEWEST + 2);
    question q = { { d.year, d.month, bit % 33 }, pixel_of(ledger + LINE * (bit % FEWEST)) };
    if (bit / FEWEST % 4 == 3) q.pixel |= 1ull << (24 + bit % 40);
    memcpy(saved, line, LINE);
    ledger[bit / 8] ^= (uint8_t)(1 << bit % 8);
    int alike = judged_alike(ledger, FEWEST, q) && judged_alike(ledger, claimed, q);
    put_other(line, bit % 2);
    alike = alike && judged_alike(ledger, FEWEST, q) && judged_alike(ledger, claimed, q);
    memcpy(line, saved, LINE);
    return alike;
}

/* Ends the program unless plain C and the library judge every spoiled ledger alike. */
static void compare_judgements(unsigned withdrawals) {
    ledgers l = make_ledgers(FEWEST, withdrawals);
    int alike = 1;
    for (size_t bit = 0; bit < 8 * LINE * FEWEST; bit++) alike = alike && spoiled_alike(l.filled, bit, l.known[0].kept);
    free_ledgers(&l);
    if (!alike) puts("judged otherwise: WRONG"), exit(1);
}

/* A row of a kind of ledger. Questions for the line that decides have rows for ledgers of 4,096 lines alone. */
static void kind_row(const char *what, const char *kind, call *one, const ledgers *l, const uint8_t *expected) {
    char name[80];
    snprintf(name, sizeof name, "%s, %s", what, kind);
    if (l->lines == WHY_LINES || strncmp(what, "why", 3)) row(name, one, l, expected);
}

static void rows(size_t lines) {
    static const struct {
        const char *name;
        unsigned withdrawals;
    } kinds[] = { { "no line cancelled", 0 }, { "a fifth withdrawals", 20 }, { "nearly half withdrawals", 48 } };
    for (int k = 0; k < 3; k++) {
        ledgers l = make_ledgers(lines, kinds[k].withdrawals);
        kind_row("compact", kinds[k].name, compact_one, &l, l.compacted);
        kind_row("purge", kinds[k].name, ask_one, &l, l.filled);
        kind_row("why day", kinds[k].name, why_day_one, &l, l.filled);
        kind_row("why pixel, far back", kinds[k].name, why_early_one, &l, l.filled);
        kind_row("why pixel, as opened", kinds[k].name, why_opened_one, &l, l.filled);
        free_ledgers(&l);
    }
}

int main(void) {
    static const size_t sizes[] = { FEWEST, 1024, 4096, 65536 };
    for (unsigned withdrawals = 0; withdrawals < 60; withdrawals += 10) compare_judgements(withdrawals);
    print_columns("ledger", "lines", "line", "memmove of the lines");
    for (int k = 0; k < 4; k++) rows(sizes[k]);
    return 0;
}
