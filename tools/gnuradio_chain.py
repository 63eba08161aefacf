#!/usr/bin/python3
"""Times GNU Radio's DVB-S2 coder: scrambler, BCH, LDPC and bit interleaver, on normal frames of 64,800 coded bits.

Usage:
    tools/gnuradio_chain.py FRAMES RATE..   RATE as GNU Radio names it: 1_3, 7_9, 9_10

For each rate one line: the rate and the nanoseconds of processor time for a coded bit. What it costs to make the bits and
to start the threads is in the time of a run with none of the four blocks, which is taken off.
"""
import random
import resource
import sys

from gnuradio import blocks, dtv, gr

CODED = 64800
# Bits before BCH, and a constellation that the standard has for the rate.
RATES = {
    "1_3": (dtv.C1_3, 21408, dtv.MOD_QPSK),
    "7_9": (dtv.C7_9, 50208, dtv.MOD_32APSK),
    "9_10": (dtv.C9_10, 58192, dtv.MOD_32APSK),
}


def spent(frames, rate, with_blocks):
    """The processor time of one run."""
    code, bits, constellation = RATES[rate]
    size = dtv.FECFRAME_NORMAL
    chain = [
        blocks.vector_source_b([random.getrandbits(1) for _ in range(bits)], True),
        blocks.head(gr.sizeof_char, bits * frames),
    ]
    if with_blocks:
        chain += [
            dtv.dvb_bbscrambler_bb(dtv.STANDARD_DVBS2, size, code),
            dtv.dvb_bch_bb(dtv.STANDARD_DVBS2, size, code),
            dtv.dvb_ldpc_bb(dtv.STANDARD_DVBS2, size, code, constellation),
            dtv.dvbs2_interleaver_bb(size, code, constellation),
        ]
    top = gr.top_block()
    top.connect(*chain, blocks.null_sink(gr.sizeof_char))
    begun = resource.getrusage(resource.RUSAGE_SELF).ru_utime
    top.run()
    return resource.getrusage(resource.RUSAGE_SELF).ru_utime - begun


def main(frames, rates):
    for rate in rates:
        whole, bare = (min(spent(frames, rate, with_blocks) for _ in range(3)) for with_blocks in (True, False))
        print(rate, f"{1e9 * (whole - bare) / (frames * CODED):.2f}")


main(int(sys.argv[1]), sys.argv[2:])
