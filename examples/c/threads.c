/* Two threads share one site under a mutex. Each has a task, which issues requests and collects their posts. The first thread
 * also serves the unit. A condition tells each that the other one changed something. */
#include "excp.h"
#include "excp_blocks.h"

#include <pthread.h>
#include <stdio.h>
#include <string.h>

enum { REQUESTS = 1000, TASKS = 2, BASE = 0x1000, ECB = 0x28, PROGRAM = 0x30, LENGTH = 0x38 };

typedef struct {
    pthread_mutex_t lock; /* of all that follows: one call at a time on a site */
    pthread_cond_t changed;
    excp_site site;
    uint8_t request[LENGTH];
    int collected[TASKS];
    int failed;
} shared;

/* An IOB of DCB 1, its ECB, and a program of one no-operation. */
static void put_request(uint8_t *storage)
{
    const excp_iob iob = { .ecb = BASE + ECB, .start = BASE + PROGRAM, .dcb = 1, .flags = EXCP_IOB_UNRELATED };
    memset(storage, 0, LENGTH);
    excp_store_iob(storage, &iob);
    excp_store_ccw(storage + PROGRAM, EXCP_OP_NOP, BASE, 0, 1);
}

/* Notes a call that failed. Returns whether it did. Under the lock. */
static int failed(shared *all, const char *what, excp_status status)
{
    if (status == EXCP_OK)
        return 0;
    fprintf(stderr, "threads: %s: %s\n", what, excp_message(status));
    all->failed = 1;
    return 1;
}

/* Issues the next request of a task. Under the lock. */
static int issue(shared *all, uint16_t task)
{
    uint64_t number;
    int wrong = failed(all, "issue", excp_issue(&all->site, task, 0, 1, BASE, BASE, all->request, LENGTH, &number));
    pthread_cond_broadcast(&all->changed);
    return wrong;
}

/* Collects a post of a task, if there is one. Returns whether there was. Under the lock. */
static int collect(shared *all, uint16_t task)
{
    uint8_t storage[LENGTH];
    excp_post post;
    excp_status status = excp_next_post(&all->site, task, &post, storage, sizeof storage);
    if (status == EXCP_NO_POST || failed(all, "next post", status))
        return 0;
    if (post.code != EXCP_CODE_ENDED)
        all->failed = 1;
    all->collected[task]++;
    return 1;
}

/* Task 1: issues a request, waits for its post, and so on. */
static void *second(void *with)
{
    shared *all = with;
    pthread_mutex_lock(&all->lock);
    for (int count = 0; count < REQUESTS && !all->failed; count++) {
        if (issue(all, 1))
            break;
        while (!collect(all, 1) && !all->failed)
            pthread_cond_wait(&all->changed, &all->lock);
    }
    pthread_cond_broadcast(&all->changed);
    pthread_mutex_unlock(&all->lock);
    return NULL;
}

/* Task 0: issues a request and serves the unit, for both tasks, until both have all their posts. */
static void *first(void *with)
{
    shared *all = with;
    pthread_mutex_lock(&all->lock);
    for (int issued = 0; !all->failed && (all->collected[0] < REQUESTS || all->collected[1] < REQUESTS);) {
        excp_served served = { 0, 0, 0 };
        if (issued < REQUESTS && issue(all, 0))
            break;
        issued += issued < REQUESTS;
        if (failed(all, "serve", excp_serve(&all->site, 0, UINT32_MAX, &served)))
            break;
        collect(all, 0);
        pthread_cond_broadcast(&all->changed);
        if (issued == REQUESTS && served.posts == 0)
            pthread_cond_wait(&all->changed, &all->lock);
        /* lets the other thread have its turn */
        pthread_mutex_unlock(&all->lock);
        pthread_mutex_lock(&all->lock);
    }
    pthread_cond_broadcast(&all->changed);
    pthread_mutex_unlock(&all->lock);
    return NULL;
}

/* Runs both threads on a site with one printer. */
static int run(shared *all)
{
    const excp_room room = { TASKS, TASKS };
    pthread_t other;
    uint16_t unit, dcb;
    if (failed(all, "printer", excp_mount_printer(&all->site, 1, 1, &room, &unit))
        || failed(all, "open", excp_open(&all->site, unit, EXCP_OUTPUT, NULL, 0, &dcb)))
        return 1;
    put_request(all->request);
    if (pthread_create(&other, NULL, second, all) != 0) {
        fprintf(stderr, "threads: no thread can be made\n");
        return 1;
    }
    first(all);
    pthread_join(other, NULL);
    for (int task = 0; task < TASKS; task++)
        printf("task %d: %d requests ended\n", task, all->collected[task]);
    return all->failed;
}

int main(void)
{
    static shared all = { .lock = PTHREAD_MUTEX_INITIALIZER, .changed = PTHREAD_COND_INITIALIZER, .site = EXCP_SITE_INIT };
    int wrong = failed(&all, "site", excp_site_new(&all.site, TASKS, TASKS));
    if (!wrong) {
        wrong = run(&all);
        wrong |= failed(&all, "free", excp_site_free(&all.site));
    }
    return wrong;
}
