/* Calls the library in threads whose stacks are as large as the header says, and 8 KB for the thread itself: ends with 0, or with 1 where a
   call answers something else, or by a signal where its stack is too small. */
#define _POSIX_C_SOURCE 200809L
#include "kldemuvash.h"
#include <pthread.h>
#include <stdio.h>
#include <string.h>

#define THREAD 8192

static uint8_t image[KL_IMAGE_MAX];
static size_t length;
static uint64_t line;

static void *assembles(void *answer)
{
    static const char text[] = "a:\n((((((((((((((((a + 1))))))))))))))))\nConst ((((((((((((((((a))))))))))))))))\tr1\n";
    *(uint32_t *)answer = kl_assemble((const uint8_t *)text, sizeof text - 1, image, sizeof image, &line, &length);
    return NULL;
}

static void *imports(void *answer)
{
    static const char text[] = ":040000000000000DEF\n:00000001FF\n";
    const uint32_t regs[16] = {0};
    *(uint32_t *)answer = kl_import((const uint8_t *)text, sizeof text - 1, regs, 0, image, sizeof image, &line, &length);
    return NULL;
}

/* The call's answer, from a thread with so many bytes of stack for the call. */
static uint32_t in_thread(void *(*call)(void *), size_t bytes)
{
    pthread_attr_t attributes;
    pthread_t thread;
    uint32_t answer = UINT32_MAX;
    if (pthread_attr_init(&attributes) != 0 || pthread_attr_setstacksize(&attributes, bytes + THREAD) != 0 ||
        pthread_create(&thread, &attributes, call, &answer) != 0 || pthread_join(thread, NULL) != 0)
        return UINT32_MAX;
    return answer;
}

int main(void)
{
    const uint32_t assembled = in_thread(assembles, 100 * 1000), imported = in_thread(imports, 25 * 1000);
    printf("assembled %u, imported %u\n", assembled, imported);
    return assembled == KL_DONE && imported == KL_DONE ? 0 : 1;
}
