/* For LD_PRELOAD: the processor seems to lack the feature LACKS of the leaves of cpuid, 32 times the leaf and the bit of ecx. */
#define _GNU_SOURCE
#include <dlfcn.h>
#include <stdlib.h>

struct leaf {
    unsigned cpuid[4], active[4];
};

const struct leaf *__x86_get_cpuid_feature_leaf(unsigned number) {
    static struct leaf copies[16];
    const struct leaf *(*real)(unsigned) = dlsym(RTLD_NEXT, "__x86_get_cpuid_feature_leaf");
    const char *lacks = getenv("LACKS");
    struct leaf *copy = &copies[number % 16];
    *copy = *real(number);
    if (lacks && (unsigned)atoi(lacks) / 32 == number)
        copy->active[2] &= ~(1u << atoi(lacks) % 32);
    return copy;
}
