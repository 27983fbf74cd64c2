/* See early.h. Written by one who had read the readings of the request, the definition and a prototype of the core's way; what it does is another.
 *
 * The data are walked bit by bit, from the first byte on. What counts of the bits walked so far is which filters still agree with them: a set of at
 * most ten, so a number below 1,024. The walk keeps all sets that some data lead to. At the next bit each of them goes on with a 0 to the filters of
 * it that don't look at the bit or want a 0, and with a 1 to those that don't look or want a 1; a filter that wants a 1 where its mask doesn't look
 * agrees with neither. So every data lead to a set that is kept, and every set that is kept has data that lead to it.
 *
 * Behind n bytes a set says the verdict on the frame of just these n bytes: a filter of at most 4 + n bytes that still agrees has had all its bytes
 * compared and matches, a longer one doesn't match. Looking at the sets kept behind 0, 1, .. 8 bytes is looking at the frames with every data there
 * is, and the answer is exact: both verdicts were seen, or only the one, or only the other. Behind the longest filter nothing moves any more. At most
 * 64 times 1,024 sets are gone on from; with few filters they are few. */
#include "early.h"

#include <string.h>

enum { SETS = 1 << EARLY_MOST, ID = 4, IN = 1, OUT = 2 };

typedef struct {
    unsigned n;
    uint16_t set[SETS];
    uint8_t there[SETS]; /* is it among them? */
} sets;

static void add(sets *s, unsigned set) {
    if (s->there[set]) return;
    s->there[set] = 1;
    s->set[s->n++] = (uint16_t)set;
}

static void none(sets *s) {
    memset(s->there, 0, sizeof s->there);
    s->n = 0;
}

/* the filters that agree with a bit of a byte where it is `value`; a filter that has no such byte agrees */
static unsigned agree(const early_filter *f, unsigned n, unsigned byte, unsigned bit, unsigned value) {
    unsigned those = 0;
    for (unsigned i = 0; i < n; i++) {
        if (byte >= f[i].size) those |= 1u << i;
        else if ((f[i].mask[byte] >> bit & value) == (f[i].pattern[byte] >> bit & 1u)) those |= 1u << i;
    }
    return those;
}

/* the filters that agree with the identifier, as far as they are long */
static unsigned agree_id(const early_filter *f, unsigned n, const uint8_t id[ID]) {
    unsigned those = (1u << n) - 1u;
    for (unsigned byte = 0; byte < ID; byte++)
        for (unsigned bit = 0; bit < 8; bit++) those &= agree(f, n, byte, bit, id[byte] >> bit & 1u);
    return those;
}

/* the sets behind one bit more: in `spare`, or where nothing moves still in `now` */
static sets *walk(sets *now, sets *spare, const early_filter *f, unsigned n, unsigned byte, unsigned bit) {
    unsigned zero = agree(f, n, byte, bit, 0), one = agree(f, n, byte, bit, 1);
    if ((zero & one) == (1u << n) - 1u) return now;
    none(spare);
    for (unsigned i = 0; i < now->n; i++) {
        add(spare, now->set[i] & zero);
        add(spare, now->set[i] & one);
    }
    return spare;
}

/* which verdicts the sets say of frames that have so many bytes */
static unsigned verdicts(const sets *s, const early_filter *f, unsigned n, unsigned bytes) {
    unsigned pass = 0, block = 0, seen = 0;
    for (unsigned i = 0; i < n; i++)
        if (f[i].size <= bytes) *(f[i].block ? &block : &pass) |= 1u << i;
    for (unsigned i = 0; i < s->n; i++) seen |= (s->set[i] & pass) != 0 && (s->set[i] & block) == 0 ? IN : OUT;
    return seen;
}

uint32_t early_answer(const early_filter *f, unsigned n, const uint8_t id[ID]) {
    sets room[2], *now = &room[0];
    unsigned longest = 0, seen;
    for (unsigned i = 0; i < n; i++) longest = f[i].size > longest ? f[i].size : longest;
    none(now), add(now, agree_id(f, n, id));
    seen = verdicts(now, f, n, ID);
    for (unsigned byte = ID; byte < longest && seen != (IN | OUT); byte++) {
        for (unsigned bit = 0; bit < 8; bit++) now = walk(now, now == room ? room + 1 : room, f, n, byte, bit);
        seen |= verdicts(now, f, n, byte + 1);
    }
    return seen == (IN | OUT) ? EARLY_MUST_SEE : seen == IN ? EARLY_PASSES : EARLY_DROPPED;
}
