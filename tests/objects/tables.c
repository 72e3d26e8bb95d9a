/* What bpf-cc links: tables, strings, functions in front and behind and in other sections. The objects of this folder are made of it:
 * clang-14 and clang-22 -target bpfel (clang-14.big: bpfeb), bpf-gcc 12, each with -O2 -mcpu=v3 -fdata-sections, and line tables of DWARF 4.
 */
typedef unsigned char u8;
typedef unsigned int u32;
typedef unsigned long long u64;

static const u8 next[10][6] = { { 1, 2, 3 }, { 4, 5, 6, 200 }, { 7, 8, 9 }, { 11 }, { 0, 12 } };
static const u8 found[10] = { 0, 0, 1, 0, 1, 0, 1, 0, 0, 2 };
static const u32 unused[100] = { 1, 2, 3 };
const u32 shared[7] = { 1, 2, 0xfffffffe, 9, 0, 5, 4 };
static const u64 wide[3] = { 0x123456789abcdef0, -5, 0x80000000 };
__attribute__((section(".rodata.both"))) static const u32 one[7] = { 1, 2, 3, 9, 0, 5, 4 };
__attribute__((section(".rodata.both"))) const u32 two[7] = { 1, 3, 3, 9, 0, 5, 4 };

__attribute__((noinline)) u64 spare(u64 i) { return unused[i & 63]; }
static __attribute__((noinline)) u64 look(u64 i) { return found[i & 7]; }
static __attribute__((noinline, section("apart"))) u64 thrice(u64 i) { asm volatile(""); return i * 3 + look(i + 1); }
__attribute__((noinline)) u64 letter(u64 i)
{
	const char *text = "hello world, whoever you are";
	return text[i & 15];
}
u64 filter(const u8 *c, u64 n)
{
	const char *text = "another one";
	u32 start[4] = { 1, 0x7654321, 3, 5 };
	u64 sum = next[c[0] & 7][c[1] & 3] + look(c[2]) + letter(c[3]) + start[c[4] & 3];
	for (u64 i = 5; i < 16 && i < n; i++)
		sum = sum * 31 + text[c[i] & 7] + shared[c[i] % 7] + one[c[i] & 3] + two[(c[i] & 3) + 3];
	return sum + thrice(c[6]) + wide[c[7] % 3];
}
