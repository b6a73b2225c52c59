/*
 * What the archives for kernels call beside memcpy (bindings/kernel), for programs that have none of their own: whoever defines
 * memmove or memset, the archive takes that. No proof is about these two.
 */
typedef __SIZE_TYPE__ size;
typedef __UINT64_TYPE__ word;

__attribute__((weak)) void *memmove(void *to, const void *from, size count)
{
    unsigned char *out = to;
    const unsigned char *in = from;
    word each;
    if ((size)to - (size)from >= count) { /* what is written is read before, if at all */
        for (; count >= sizeof each; count -= sizeof each, in += sizeof each, out += sizeof each) {
            __builtin_memcpy(&each, in, sizeof each);
            __builtin_memcpy(out, &each, sizeof each);
        }
        while (count--)
            *out++ = *in++;
    } else {
        while (count--)
            out[count] = in[count];
    }
    return to;
}

__attribute__((weak)) void *memset(void *to, int byte, size count)
{
    unsigned char *out = to;
    const word each = (unsigned char)byte * (~(word)0 / 255);
    for (; count >= sizeof each; count -= sizeof each, out += sizeof each)
        __builtin_memcpy(out, &each, sizeof each);
    while (count--)
        *out++ = (unsigned char)byte;
    return to;
}
