/* The types and the few functions of the C library that these programs use: the kit's compiler comes without headers. */
#ifndef PEER_LIBC_H
#define PEER_LIBC_H

typedef __UINT8_TYPE__ uint8_t;
typedef __UINT16_TYPE__ uint16_t;
typedef __UINT32_TYPE__ uint32_t;
typedef __INT64_TYPE__ int64_t;
typedef __UINT64_TYPE__ uint64_t;
typedef __SIZE_TYPE__ size_t;
typedef _Bool bool;
enum { false = 0, true = 1 };

void *memcpy(void *restrict to, const void *restrict from, size_t n);
void *memmove(void *to, const void *from, size_t n);
void *memset(void *to, int byte, size_t n);
int memcmp(const void *one, const void *other, size_t n);
int strcmp(const char *one, const char *other);
unsigned long long strtoull(const char *text, char **end, int base);
int printf(const char *format, ...);

typedef struct _IO_FILE FILE;
extern FILE *stdin, *stdout;
FILE *fopen(const char *path, const char *mode);
size_t fread(void *to, size_t size, size_t n, FILE *file);
size_t fwrite(const void *from, size_t size, size_t n, FILE *file);
int fclose(FILE *file);
int fflush(FILE *file);

enum { SIGSEGV = 11 };
void (*signal(int number, void (*handler)(int)))(int);
void _exit(int status);

struct timespec {
    int64_t tv_sec;
    int64_t tv_nsec;
};
enum { CLOCK_MONOTONIC = 1 };
int clock_gettime(int clock, struct timespec *now);

#endif
