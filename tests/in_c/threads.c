/* One station and three threads, under a lock: two take a part of a row in turn, and between each two parts the third asks for all rows; and
 * the one that opened it is not the one that closes it. Of the log on standard input: at the end the station tells what it tells where one
 * thread does all. A thread that is not at its turn sleeps until the turn is passed on, so that this ends under any scheduler. */
#include "log.h"
#include "told.h"
#include "tries.h"

#include <pthread.h>

enum { PART = 7, TAKERS = 2, ASKER = TAKERS };

static hidzgula_station station = HIDZGULA_EMPTY;
static pthread_mutex_t lock = PTHREAD_MUTEX_INITIALIZER;
static pthread_cond_t passed_on = PTHREAD_COND_INITIALIZER;
static size_t at;
static unsigned turn; /* how often it was passed on: even where a part is taken, odd where rows are asked for */
static unsigned turns[TAKERS + 1], wrong;
static bool ended;

/* waits, under the lock, for the turn of a thread; false where there are no parts left */
static bool has_turn(int own)
{
    while (!ended && (turn % 2 ? ASKER : (int)(turn / 2 % TAKERS)) != own) pthread_cond_wait(&passed_on, &lock);
    return !ended;
}

static void pass_on(int own)
{
    turns[own]++;
    turn++;
    pthread_cond_broadcast(&passed_on);
}

/* the next part, without looking at what the station replies */
static void take_part(hidzgula_station *to, size_t *from)
{
    hidzgula_change changes[PART];
    hidzgula_reply reply;
    size_t taken = 0;
    wrong += hidzgula_take_frames(to, frames + *from, frame_count - *from, changes, PART, &reply, &taken) != HIDZGULA_DONE;
    wrong += taken == 0;
    *from += taken ? taken : frame_count;
}

static void *takes(void *number)
{
    int own = *(int *)number;
    pthread_mutex_lock(&lock);
    while (has_turn(own)) {
        take_part(&station, &at);
        ended = at >= frame_count;
        pass_on(own);
    }
    pthread_mutex_unlock(&lock);
    return NULL;
}

static void *asks(void *unused)
{
    (void)unused;
    pthread_mutex_lock(&lock);
    while (has_turn(ASKER)) {
        size_t rows = 0;
        hidzgula_row_out row;
        wrong += hidzgula_rows(&station, &rows) != HIDZGULA_DONE;
        for (size_t place = 0; place < rows; place++) wrong += hidzgula_row(&station, place, &row) != HIDZGULA_DONE;
        pass_on(ASKER);
    }
    pthread_mutex_unlock(&lock);
    return NULL;
}

static void *opens(void *unused)
{
    (void)unused;
    wrong += hidzgula_open(&station, 1, 248, 255, 40) != HIDZGULA_DONE;
    return NULL;
}

static uint64_t by_one_thread(void)
{
    hidzgula_station alone = HIDZGULA_EMPTY;
    wrong += hidzgula_open(&alone, 1, 248, 255, 40) != HIDZGULA_DONE;
    for (size_t from = 0; from < frame_count;) take_part(&alone, &from);
    uint64_t told = told_by(&alone);
    hidzgula_close(&alone);
    return told;
}

int main(void)
{
    static int numbers[TAKERS] = { 0, 1 };
    pthread_t threads[TAKERS + 1];
    read_frames();
    uint64_t wanted = by_one_thread();
    bool started = pthread_create(&threads[0], NULL, opens, NULL) == 0 && pthread_join(threads[0], NULL) == 0;
    started = started && pthread_create(&threads[ASKER], NULL, asks, NULL) == 0;
    for (int i = 0; started && i < TAKERS; i++) started = pthread_create(&threads[i], NULL, takes, &numbers[i]) == 0;
    if (!started) return 2;
    for (int i = 0; i <= TAKERS; i++) pthread_join(threads[i], NULL);
    is("each call is done", wrong, 0);
    is("each thread has turns", turns[0] > 9 && turns[1] > 9 && turns[ASKER] > 19, true);
    is("the end is the same", told_by(&station) == wanted, true);
    hidzgula_close(&station);
    return sums();
}
