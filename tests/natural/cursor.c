/* context 128 range 14 256: a cursor that helpers move, as in the XDP tutorial: destination port << 16 | protocol of IPv4 behind VLAN tags */
#include "nat.h"
struct cursor { const u8 *pos, *end; };
INLINE int parse_eth(struct cursor *c, u16 *proto)
{
	const struct ethhdr *eth = (const void *)c->pos;
	if (c->pos + sizeof *eth > c->end)
		return -1;
	c->pos += sizeof *eth;
	*proto = eth->h_proto;
	for (int i = 0; i < 2; i++) {
		const struct vlan_hdr *vlan = (const void *)c->pos;
		if (*proto != htons(0x8100) && *proto != htons(0x88a8))
			break;
		if ((const u8 *)(vlan + 1) > c->end)
			return -1;
		*proto = vlan->proto;
		c->pos += sizeof *vlan;
	}
	return 0;
}
INLINE int parse_ip(struct cursor *c)
{
	const struct iphdr *ip = (const void *)c->pos;
	int size;
	if ((const u8 *)(ip + 1) > c->end)
		return -1;
	size = (ip->vihl & 15) * 4;
	if (size < 20 || c->pos + size > c->end)
		return -1;
	c->pos += size;
	return ip->protocol;
}
u64 prog(const u8 *ctx, u64 len)
{
	struct cursor c = { ctx, ctx + len };
	const struct udphdr *ports;
	u16 proto;
	int l4;
	if (parse_eth(&c, &proto) < 0 || proto != htons(0x0800))
		return 1;
	l4 = parse_ip(&c);
	if (l4 != 6 && l4 != 17)
		return 2;
	ports = (const void *)c.pos;
	if ((const u8 *)(ports + 1) > c.end)
		return 3;
	return (u64)ntohs(ports->dest) << 16 | (u32)l4;
}
