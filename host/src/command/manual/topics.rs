//! What the help and the manual page say beside the commands.

/// A heading, and lines under it that stand as they are.
pub(super) struct Topic {
    pub(super) title: &'static str,
    pub(super) text: &'static str,
}

pub(super) const ARGUMENTS: Topic = Topic {
    title: "Arguments",
    text: "\
FABRIC is a fabric file of version 1 or 2, TEXT a text; - is standard input, and
for what pack and widen write standard output. TARGET and START are edge ports,
by their numbers; list also takes 'lost' as TARGET. A packet is foreign if it
starts in another group than the target's, or outside what its own edge port
admits. Options may stand anywhere after the command; -- ends them.
",
};

/// What 'isolated' is about, and what it isn't.
pub(super) const COVERED: Topic = Topic {
    title: "What is covered",
    text: "\
Of a fabric of version 1 answers are about IPv4 headers: nw_src, nw_dst, tp_src,
tp_dst, dl_vlan, nw_tos and nw_proto. ARP, IPv6 and other frames are not told
apart: 'isolated' says nothing of them. Version 2 has dl_src, dl_dst, dl_type
and dl_vlan_pcp too, and 'isolated' is about frames of every type, by what a
switch of OpenFlow 1.0 reads: nothing of IPv6's own header. It holds for packets
that make at most the hop limit's hops, and of the fabric that the file says.
Where entries of the same priority match, a switch may choose any of them, at
each hop anew: 'isolated' holds under every choice, 'reached' shows one.
",
};

pub(super) const SETS: Topic = Topic {
    title: "Header sets",
    text: "\
SET is 'any', or fields with commas between them: nw_dst=10.0.0.2,nw_proto=tcp.
The fields are nw_src, nw_dst, tp_src, tp_dst, dl_vlan, nw_tos, nw_proto and, of
version 2 alone, dl_src, dl_dst, dl_type, dl_vlan_pcp.
  nw_src, nw_dst  10.0.0.2  10.0.0.0/24  10.0.0.0/255.0.0.255
  dl_src, dl_dst  02:00:00:00:00:01  02:00:00:00:00:00/ff:ff:ff:00:00:00
  others          80  0x50  0x50/0xfff0 (value/mask, of any field)
  also            nw_proto=tcp, udp, icmp  dl_type=ip, arp, ipv6
HEADER is the same without masks; a field that isn't named is 0.
",
};

pub(super) const TEXTS: Topic = Topic {
    title: "Texts",
    text: "\
A text has a line for each edge, link and entry, and # before a remark:
  edge 1 group 7 admits nw_src=10.0.0.0/24
  link 10 -> 11
  entry 1 -> 10 priority 20 match nw_dst=10.0.0.2,nw_proto=tcp,tp_dst=80
  entry 11 -> 12 priority 1 match any set dl_vlan=5
  entry 11 -> 12 priority 7 match nw_dst=10.0.0.80 swap set nw_tos=4
  name 12 storage-a
  switch leaf-1 1 10 12
Behind its match an entry may have copy, which copies nw_src over nw_dst, or
swap, which swaps them, and then set, which writes fields: in this order.
A line 'openflow 1.3' says that a packet which no entry takes is dropped; with
'openflow 1.0', or without such a line, it is lost. A line 'version 2' says that
headers have Ethernet's fields too; with 'version 1', or without such a line,
they don't. Each stands at most once, and before every edge, link and entry.
A switch reads tp_src and tp_dst only beside nw_proto. Of the entries at an in-
port that match, one of the highest priority takes the packet: any, if there are
several, wherever they stand. Ports are 1 to 4095. At most 64 edges, 256 links,
512 entries (400 in version 2), 64 of them at one in-port. Names are said in
answers; pack keeps them beside the file, in FABRIC.names.
",
};

pub(super) const STATUS: Topic = Topic {
    title: "Exit status",
    text: "\
0  verdict, gate, audit: isolated, and nothing else; the others, and help that
   stands alone: done
1  verdict, gate, audit: a foreign packet gets through
2  no answer: bad use, a file that can't be read or written, a question that
   was refused, a budget that was used up, or output that couldn't be written
",
};

/// The last of each command's statuses.
pub(super) const NO_ANSWER: &str = "no answer: bad use, a refusal, or an error";
