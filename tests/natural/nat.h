/* What the programs of this folder share. Nothing here is made for the checker. */
typedef unsigned char u8;
typedef unsigned short u16;
typedef unsigned int u32;
typedef unsigned long long u64;
typedef signed char s8;
typedef short s16;
typedef int s32;
typedef long long s64;
typedef _Bool bool;
#define INLINE static inline __attribute__((always_inline))
#define NOINLINE static __attribute__((noinline))
#define ntohs(x) __builtin_bswap16(x)
#define htons(x) __builtin_bswap16(x)
#define ntohl(x) __builtin_bswap32(x)
INLINE u32 rol32(u32 x, int r) { return x << r | x >> (32 - r); }
INLINE u64 rol64(u64 x, int r) { return x << r | x >> (64 - r); }
struct ethhdr { u8 h_dest[6], h_source[6]; u16 h_proto; } __attribute__((packed, aligned(2)));
struct iphdr { u8 vihl, tos; u16 tot_len, id, frag_off; u8 ttl, protocol; u16 check; u32 saddr, daddr; } __attribute__((packed, aligned(2)));
struct ipv6hdr { u32 vtcfl; u16 payload_len; u8 nexthdr, hop_limit; u32 saddr[4], daddr[4]; } __attribute__((packed, aligned(2)));
struct tcphdr { u16 source, dest; u32 seq, ack_seq; u8 doff, flags; u16 window, check, urg_ptr; } __attribute__((packed, aligned(2)));
struct udphdr { u16 source, dest, len, check; } __attribute__((packed, aligned(2)));
struct vlan_hdr { u16 tci, proto; } __attribute__((packed, aligned(2)));
