/* All ways copy between the same two buffers, so that none has better pages than another. */
#include "checkpoint_ways.h"

#include <string.h>

#include "checkpoint_peers.h"
#include "inputs.h"

static int64_t from[MOST_WORDS], to[MOST_WORDS], answer[MOST_WORDS];

static void library_save(const input *in, const int64_t *restrict storage, int64_t *restrict saved)
{
    if (checkpoint(in, storage, saved).refusal != HPF_ACCEPTED)
        stop_different("checkpoint, which is refused,", in);
}

static void library_restore(const input *in, const int64_t *restrict saved, int64_t *restrict storage)
{
    if (restore(in, saved, storage).refusal != HPF_ACCEPTED)
        stop_different("restore, which is refused,", in);
}

static void copy_straight(const input *in, const int64_t *restrict words, int64_t *restrict copy)
{
    memcpy(copy, words, sizeof copy[0] * (size_t)in->size);
}

#define CALL(copy)                                        \
    static void call_##copy(const void *in, int64_t call) \
    {                                                     \
        (void)call;                                       \
        copy(in, from, to);                               \
    }

CALL(library_save)
CALL(save_words)
CALL(save_pointers)
CALL(save_runs)
CALL(save_memcpy)
CALL(library_restore)
CALL(restore_words)
CALL(restore_pointers)
CALL(restore_runs)
CALL(restore_memcpy)
CALL(copy_straight)

void ways_of(const input *in, timed_call *ways[COPY_WAYS])
{
    static timed_call *const all[COPY_WAYS] = {
        call_library_save,    call_save_words,    call_save_pointers,    call_save_runs,    call_save_memcpy,
        call_library_restore, call_restore_words, call_restore_pointers, call_restore_runs, call_restore_memcpy,
        call_copy_straight,
    };
    memcpy(ways, all, sizeof all);
    if (in->stride > in->block)
        for (int loop = RUNS; loop <= MEMCPY_RUNS; loop++)
            ways[SAVE + loop] = ways[RESTORE + loop] = NULL;
}

/* what a way writes; a word that it leaves out is -1, which none is */
static const int64_t *copied_by(timed_call *way, const input *in)
{
    memset(to, 0xff, sizeof to[0] * (size_t)in->size);
    way(in, 0);
    return to;
}

void check_copies(const input *in)
{
    timed_call *ways[COPY_WAYS];
    size_t bytes = sizeof to[0] * (size_t)in->size;
    ways_of(in, ways);
    for (int64_t i = 0; i < in->size; i++)
        from[i] = i;
    for (int first = SAVE; first <= RESTORE; first += RESTORE) {
        memcpy(answer, copied_by(ways[first + LIBRARY], in), bytes);
        for (int loop = LIBRARY + 1; loop < LOOPS; loop++)
            if (ways[first + loop] && memcmp(copied_by(ways[first + loop], in), answer, bytes) != 0)
                stop_different(first == SAVE ? "C loop of a checkpoint" : "C loop of a restore", in);
    }
}

const char *loop_name(int loop)
{
    static const char *const names[LOOPS] = {"library", "words", "pointers", "runs", "memcpy"};
    return names[loop];
}

int fastest_loop(const double times[LOOPS])
{
    int fastest = WORDS;
    for (int loop = WORDS + 1; loop < LOOPS; loop++)
        if (times[loop] > 0 && times[loop] < times[fastest])
            fastest = loop;
    return fastest;
}
