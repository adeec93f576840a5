/* What each peer's program has in common: `PEER FILE LEVEL VERSION COUNT` makes COUNT symbols of
   the bytes of FILE, at LEVEL (L, M, Q, H), of VERSION (0: the least Normal one; 1 to 40; M1 to
   M4), and prints how many modules a side has and how many dark ones the last symbol. */
#ifndef PEER_H
#define PEER_H
#include <stdio.h>
#include <stdlib.h>
#include <string.h>

struct job {
    unsigned char *bytes; /* with a zero behind them */
    int length;
    int level; /* 0 for L to 3 for H */
    int version; /* 0: the least Normal one */
    int micro;
    long count;
};

static void fail(const char *what)
{
    fprintf(stderr, "peer: %s\n", what);
    exit(1);
}

static struct job read_job(int argc, char **argv)
{
    struct job job;
    memset(&job, 0, sizeof job);
    if (argc != 5)
        fail("usage: PEER FILE LEVEL VERSION COUNT");
    FILE *file = fopen(argv[1], "rb");
    if (!file)
        fail("no such file");
    job.bytes = (unsigned char *)calloc(1, 8192);
    job.length = (int)fread(job.bytes, 1, 8191, file);
    fclose(file);
    const char *levels = "LMQH", *level = strchr(levels, argv[2][0]);
    if (!level || !*level)
        fail("no such level");
    job.level = (int)(level - levels);
    job.micro = argv[3][0] == 'M';
    job.version = atoi(argv[3] + job.micro);
    job.count = atol(argv[4]);
    return job;
}

/* The program's own: makes a symbol, and returns how many modules a side has; unless `dark` is
   NULL, adds to it how many are dark. */
static int make(const struct job *job, int *dark);

int main(int argc, char **argv)
{
    struct job job = read_job(argc, argv);
    int side = 0, dark = 0;
    for (long i = 0; i < job.count; i++)
        side = make(&job, i + 1 == job.count ? &dark : NULL);
    printf("%d %d\n", side, dark);
    return 0;
}
#endif
