/* A host in C. It makes one call, on a thread with just the stack that the
 * header asks for, and prints the code and then the bytes of the area.
 *
 *     caller CALL FILE LENT PORT LIMIT BUDGET CARE.. VALUE..
 *
 * A CALL of version 2 ends in _v2, and takes eight words of care and of value.
 * Without a CALL it prints what the header and the archive say of themselves.
 * A FILE of no bytes and an area of none are handed over as NULL. */
#include <mwishovala.h>
#include <pthread.h>
#include <stdio.h>
#include <stdlib.h>
#include <string.h>

enum { MOST_FILE = 100000, NUMBERS = 11, NUMBERS_V2 = 19 };

typedef uint64_t v1_call(const uint8_t *, size_t, uint8_t *, size_t, uint32_t, uint32_t, uint32_t,
                         uint32_t, uint32_t, uint32_t, uint32_t,
                         uint32_t, uint32_t, uint32_t, uint32_t);
typedef uint64_t v2_call(const uint8_t *, size_t, uint8_t *, size_t, uint32_t, uint32_t, uint32_t,
                         uint32_t, uint32_t, uint32_t, uint32_t,
                         uint32_t, uint32_t, uint32_t, uint32_t,
                         uint32_t, uint32_t, uint32_t, uint32_t,
                         uint32_t, uint32_t, uint32_t, uint32_t);

/* A call of one version. */
struct call {
    const char *name;
    v1_call *v1;
    v2_call *v2;
};

static const struct call calls[] = {
    {"verdict", fabric_verdict, NULL},       {"list", fabric_list, NULL},
    {"run", fabric_run, NULL},               {"verdict_v2", NULL, fabric_verdict_v2},
    {"list_v2", NULL, fabric_list_v2},       {"run_v2", NULL, fabric_run_v2},
};

struct job {
    const struct call *call;
    const uint8_t *file;
    size_t file_len;
    uint8_t *area;
    size_t area_len;
    uint32_t n[NUMBERS_V2];
    uint64_t code;
};

static void *make(void *given) {
    struct job *job = given;
    const uint32_t *n = job->n;
    if (job->call->v1) {
        job->code = job->call->v1(job->file, job->file_len, job->area, job->area_len, n[0], n[1],
                                  n[2], n[3], n[4], n[5], n[6], n[7], n[8], n[9], n[10]);
    } else {
        job->code = job->call->v2(job->file, job->file_len, job->area, job->area_len, n[0], n[1],
                                  n[2], n[3], n[4], n[5], n[6], n[7], n[8], n[9], n[10], n[11],
                                  n[12], n[13], n[14], n[15], n[16], n[17], n[18]);
    }
    return NULL;
}

static void fail(const char *what) {
    fprintf(stderr, "caller.c: %s\n", what);
    exit(1);
}

static const struct call *call_named(const char *name) {
    for (size_t i = 0; i < sizeof calls / sizeof *calls; i++) {
        if (strcmp(name, calls[i].name) == 0) return &calls[i];
    }
    fail("there is no such call");
    return NULL;
}

static size_t read_file(const char *name, uint8_t *bytes) {
    FILE *file = fopen(name, "rb");
    if (!file) fail("the file can't be opened");
    size_t length = fread(bytes, 1, MOST_FILE, file);
    fclose(file);
    return length;
}

static uint8_t *lend(size_t length) {
    uint8_t *area = length ? malloc(length) : NULL;
    if (length && !area) fail("no memory");
    for (size_t i = 0; i < length; i++) area[i] = (uint8_t)(i * 7 + 3);
    return area;
}

static void on_its_thread(struct job *job) {
    pthread_attr_t attributes;
    pthread_t thread;
    pthread_attr_init(&attributes);
    if (pthread_attr_setstacksize(&attributes, FABRIC_STACK_BYTES)) fail("no such stack");
    if (pthread_create(&thread, &attributes, make, job)) fail("no thread");
    pthread_join(thread, NULL);
}

int main(int count, char **given) {
    static uint8_t file[MOST_FILE];
    if (count == 1) {
        printf("%d %d %d\n%s\n", FABRIC_ANSWER_BYTES, FABRIC_ANSWER_BYTES_V2, FABRIC_STACK_BYTES,
               mwishovala_version);
        return 0;
    }
    struct job job = {.call = call_named(given[1])};
    int numbers = job.call->v1 ? NUMBERS : NUMBERS_V2;
    if (count != 4 + numbers) fail("other arguments are needed");
    job.file_len = read_file(given[2], file);
    job.file = job.file_len ? file : NULL;
    job.area_len = strtoul(given[3], NULL, 10);
    job.area = lend(job.area_len);
    for (int i = 0; i < numbers; i++) job.n[i] = (uint32_t)strtoul(given[4 + i], NULL, 10);
    on_its_thread(&job);
    printf("%u at %llu\n", FABRIC_NUMBER(job.code), (unsigned long long)FABRIC_PLACE(job.code));
    for (size_t i = 0; i < job.area_len; i++) printf("%02x", job.area[i]);
    printf("\n");
    free(job.area);
    return 0;
}
