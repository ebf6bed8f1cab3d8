/*
 * What is promised of kilnumber_mask, tried without a walker beside it: it is 0 when the walk is refused, has no bit at or above
 * the width, has as many ones as the walk of a generated tree has tests, and words of the width that agree on it get the same
 * answer.
 *
 * Usage: mask_test file, where the file holds generated trees (make_trees.py). Prints one line with the counts; at the first
 * difference it exits with status 1.
 *
 *   gcc -std=c11 -O2 -Wall -Wextra -fsanitize=address,undefined -Iinclude tests/c/mask_test.c libkilnumber.a -o mask_test
 *
 * With -DSTAND_IN there is no library; with WRONG=1 and so on in the environment the mask in its place (wrong_mask.h) is wrong in one way.
 */

#include "kilnumber.h"
#include "trees.h"

#ifdef STAND_IN
#include "wrong.h"
#define WRONG_MASK WRONG
#include "wrong_mask.h"

uint64_t kilnumber_walk(const uint8_t *tree, size_t length, uint32_t word) { return packed(walk(tree, length, word)); }
#endif

#define PAIRS 1000000u
#define GENERATED_TRIES 1800

static uint64_t masks, refusals[10], twice, leaves, generated_pairs, pairs; /* pairs: of two words that differ */

struct answer {
    uint64_t result;
    uint32_t mask;
};

/* `length` bytes of the tree in `lent`, which is laid out as the file is: low byte first. */
static struct answer answer_of(size_t length, uint32_t word) {
    const uint8_t *tree = (const uint8_t *)lent;
    struct answer answer = {kilnumber_walk(tree, length, word), kilnumber_mask(tree, length, word)};
    return answer;
}

static void differs(const char *what, uint32_t word, struct answer answer) {
    printf("difference: %s: word %08x, answer %016llx, mask %08x; the tree:", what, (unsigned)word,
           (unsigned long long)answer.result, (unsigned)answer.mask);
    for (size_t at = 0; at < 40; at++) printf(" %08x", (unsigned)lent[at]);
    printf("\n");
    exit(1);
}

static uint32_t ones(uint32_t mask) {
    uint32_t count = 0;
    for (; mask != 0; mask &= mask - 1) count++;
    return count;
}

static uint32_t width_bits(void) { return 0xffffffff >> (32 - (lent[0] >> 16 & 63)); }

/* One mask by itself; whether its walk finished. */
static int try_mask(size_t length, uint32_t word, int generated) {
    struct answer answer = answer_of(length, word);
    uint32_t number = kilnumber_number(answer.result), tests = kilnumber_tests(answer.result);
    masks++;
    refusals[number]++;
    if (number != 0 && answer.mask != 0) differs("a mask of a walk that is refused", word, answer);
    if (number != 0) return 0;
    if ((answer.mask & ~width_bits()) != 0) differs("a bit at or above the width", word, answer);
    if (ones(answer.mask) > tests) differs("more ones than tests", word, answer);
    if (generated && ones(answer.mask) != tests) differs("fewer ones than tests", word, answer);
    if (ones(answer.mask) < tests) twice++;
    if (tests == 0) leaves++;
    return 1;
}

/* A word whose walk finishes, and one of the width that agrees with it on its mask. */
static void try_pair(size_t length, uint32_t word, int generated) {
    if (!try_mask(length, word, generated)) return;
    struct answer answer = answer_of(length, word);
    uint32_t other = word ^ (any() & ~answer.mask & width_bits());
    struct answer again = answer_of(length, other);
    if (again.result != answer.result || again.mask != answer.mask) {
        printf("with the word %08x: answer %016llx, mask %08x\n", (unsigned)word, (unsigned long long)answer.result,
               (unsigned)answer.mask);
        differs("a word that agrees on the mask", other, again);
    }
    if (other == word) return; /* every bit is tested */
    pairs++;
    if (generated) generated_pairs++;
}

/* Damage: a node on most paths, the header, the length. */
static void try_damaged(size_t words, int times) {
    uint32_t nodes = lent[0] & 0xffff;
    for (int turn = 0; turn < times; turn++) {
        uint32_t index = 1 + below(nodes < 8 ? nodes : 8), node = lent[index], header = lent[0];
        alter_node(index, nodes);
        for (int again = 0; again < 8; again++) try_pair(4 * words, some_word(header), 0);
        lent[index] = node;
        alter_header(words);
        for (int again = 0; again < 4; again++) try_pair(4 * words, some_word(header), 0);
        lent[0] = header;
        try_pair(4 * words + 7 - below(14), some_word(header), 0); /* words after a tree are no damage */
    }
}

static void generated_trees(const char *name) {
    struct trees trees = open_trees(name);
    for (size_t words = next_tree(&trees); words != 0; words = next_tree(&trees)) {
        for (int turn = 0; turn < GENERATED_TRIES; turn++) try_pair(4 * words, some_word(lent[0]), 1);
        try_damaged(words, 20);
    }
}

/* Trees that no table has: they test a bit twice on many paths. */
static void foreign_trees(void) {
    for (uint32_t turn = 0; pairs < PAIRS; turn++) {
        size_t words = make_foreign(1 + turn % 32, turn % 4 == 0 ? 1 + below(400) : 1 + below(24), 0);
        for (int again = 0; again < 96 && pairs < PAIRS; again++) try_pair(4 * words, some_word(lent[0]), 0);
        if (pairs + 1000 < PAIRS) try_damaged(words, 10);
    }
}

int main(int arguments, char **argument) {
    if (arguments != 2) {
        printf("usage: mask_test file\n");
        return 2;
    }
    generated_trees(argument[1]);
    foreign_trees();
    require(generated_pairs, PAIRS / 2, "pairs on generated trees");
    require(twice, 50000, "walks that test a bit twice");
    require(leaves, 10000, "walks without a test");
    for (int number = 7; number <= 9; number++) require(refusals[number], 10000, "a number of refusals");
    printf("mask_test good: %llu masks, %llu pairs; %llu of these on generated trees, %llu walks test a bit twice\n",
           (unsigned long long)masks, (unsigned long long)pairs, (unsigned long long)generated_pairs, (unsigned long long)twice);
    return 0;
}
