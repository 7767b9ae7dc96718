/* What a back end asks of C: to fill bytes and to copy them. Each object that tools/targets.sh
 * compiles has these two for itself (static), so that the library needs no C library. */
typedef __SIZE_TYPE__ size;

__attribute__((used)) static void *memset(void *to, int byte, size n) {
#ifdef __x86_64__ /* as fast as the C library's */
    void *at = to;
    __asm__ volatile("rep stosb" : "+D"(at), "+c"(n) : "a"(byte) : "memory");
#else
    for (size i = 0; i < n; i++) ((unsigned char *)to)[i] = (unsigned char)byte;
#endif
    return to;
}

__attribute__((used)) static void *memcpy(void *restrict to, const void *restrict from, size n) {
#ifdef __x86_64__
    void *at = to;
    __asm__ volatile("rep movsb" : "+D"(at), "+S"(from), "+c"(n) : : "memory");
#else
    for (size i = 0; i < n; i++) ((unsigned char *)to)[i] = ((const unsigned char *)from)[i];
#endif
    return to;
}
