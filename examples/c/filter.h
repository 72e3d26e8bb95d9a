/* What filters in C share: numbers by size, the context, and loops and accesses in a form that can be certified. See docs/GUIDE.md. */
#ifndef FILTER_H
#define FILTER_H

typedef unsigned char u8;
typedef unsigned short u16;
typedef unsigned int u32;
typedef unsigned long long u64;

/* The network's byte order, as in <arpa/inet.h>; whoever includes that does so in front of this file. A constant stays one, as in
 * `case htons(0x0800):`.
 */
#ifndef ntohs
#if __BYTE_ORDER__ == __ORDER_LITTLE_ENDIAN__
#define ntohs(x) ((u16)__builtin_bswap16(x))
#define ntohl(x) ((u32)__builtin_bswap32(x))
#else
#define ntohs(x) ((u16)(x))
#define ntohl(x) ((u32)(x))
#endif
#define htons(x) ntohs(x)
#define htonl(x) ntohl(x)
#endif

/* The context's bytes: another number may be defined before this file is included, or by -DCONTEXT_SIZE=1520. */
#ifndef CONTEXT_SIZE
#define CONTEXT_SIZE 128
#endif

/* The context: the packet's own length in the program's byte order, then as much of the packet as there is room for, the rest zero.
 * Of a packet that is longer than its room, `length` is the whole length.
 */
struct context {
	u64 length;
	u8 packet[CONTEXT_SIZE - 8];
};

/* Keeps the compiler from reasoning about a number, so that a test or a mask before an access stays. */
#define HIDE(x) asm volatile("" : "+r"(x))

/* Loops that stay loops, loops of a constant number of turns that are spelled out, and functions whose code stands in the caller's lines. */
#ifdef __clang__
#define FILTER_LOOP _Pragma("clang loop unroll(disable)")
#define FILTER_ROW _Pragma("clang loop unroll(full)")
#define FILTER_INLINE static inline __attribute__((always_inline, nodebug))
#else
#define FILTER_LOOP
#define FILTER_ROW _Pragma("GCC unroll 64")
#define FILTER_INLINE static inline __attribute__((always_inline, artificial))
#endif

/* As in <string.h>; whoever includes that of a C library does so in front of this file. Copies and fills are of a constant length. A comparison
 * is of any, in the caller's own lines, so that the bytes may lie in the frame as in the context: words in a row where the length is constant
 * and no more than a frame has, else a loop over the bytes.
 */
void *memcpy(void *to, const void *from, __SIZE_TYPE__ size);
void *memset(void *to, int byte, __SIZE_TYPE__ size);
FILTER_INLINE int bytes_compared(const void *left, const void *right, u64 size)
{
	const u8 *a = left, *b = right;
	int difference = 0;

	FILTER_LOOP for (u64 at = 0; at < size && difference == 0; at++) {
		difference = a[at] - b[at];
		HIDE(difference);
	}
	return difference;
}
#if __BYTE_ORDER__ == __ORDER_LITTLE_ENDIAN__
#define FIRST_BYTE_FIRST(word) __builtin_bswap64(word)
#else
#define FIRST_BYTE_FIRST(word) (word)
#endif
#define COMPARE_WORD(type) do { \
	u64 l_ = *(const type *)(a + at), r_ = *(const type *)(b + at); \
	if (l_ != r_) \
		return FIRST_BYTE_FIRST(l_) < FIRST_BYTE_FIRST(r_) ? -1 : 1; \
	at += sizeof(type); \
} while (0)
FILTER_INLINE int words_compared(const void *left, const void *right, u64 size)
{
	const u8 *a = left, *b = right;
	u64 at = 0;

	FILTER_ROW for (u64 words = size / 8; words > 0; words--)
		COMPARE_WORD(u64);
	if (size & 4)
		COMPARE_WORD(u32);
	if (size & 2)
		COMPARE_WORD(u16);
	return size & 1 ? a[at] - b[at] : 0;
}
#define memcmp(left, right, size) (__builtin_constant_p(size) && (size) <= 512 ? words_compared(left, right, size) : bytes_compared(left, right, size))

/* A loop of at most n turns over i, from 0 on; the counter itself is tested. */
#define TIMES(i, n) FILTER_LOOP for (u64 i = 0; ({ HIDE(i); i < (n); }); i++)

/* At most n turns for any loop: `TURNS(t, 32);` stands in front of it, and `TURN(t);` first in it. Behind the last turn the function
 * answers 0.
 */
#define TURNS(t, n) u64 t = (n)
#define TURN(t) do { HIDE(t); if (t == 0) return 0; t--; HIDE(t); } while (0)

/* The number of a type at an offset into `size` bytes, in the program's byte order; 0 where it doesn't lie in them. */
#define GET(type, bytes, at, size) ({ \
	u64 at_ = (at); \
	type it_ = 0; \
	HIDE(at_); \
	if ((size) >= sizeof(type) && at_ <= (size) - sizeof(type)) \
		it_ = *(const type *)((const u8 *)(bytes) + at_); \
	it_; })

/* The byte at an offset into `size` bytes, a power of two: the offset is masked right before the access. */
#define BYTE(bytes, at, size) ({ u64 at_ = (at); HIDE(at_); at_ &= (size) - 1; (bytes)[at_]; })

/* A cell of an array of the frame; the first one where there is no such cell. */
#define CELL(array, at) (*({ \
	u64 at_ = (at); \
	HIDE(at_); \
	if (at_ >= sizeof(array) / sizeof *(array)) \
		at_ = 0; \
	(array) + at_; }))

/* The length of an IPv4 header by its first byte, or of a TCP header by `byte >> 4`. */
#define HEADER_LENGTH(byte) ({ u64 words_ = (byte); HIDE(words_); (words_ & 15) * 4; })

/* Two bytes in the network's order. */
FILTER_INLINE u64 word_at(const u8 *bytes, u64 at)
{
	return (u64)bytes[at] << 8 | bytes[at + 1];
}

#endif
