'''
PROFIBUS FDL (the data link layer of IEC 61158 type 3): the telegrams of characters that the decoder 'uart' reads.

Install it for one user:

    mkdir -p ~/.local/share/libsigrokdecode/decoders
    cp -r profibus_fdl ~/.local/share/libsigrokdecode/decoders/

Decode a dump of `ringplay export FILE --to vcd --no-text`, or the line of a bus that an analyser has sampled:

    sigrok-cli -I vcd -i dump.vcd -P uart:rx=bus:baudrate=1500000:parity=even,profibus_fdl -A profibus_fdl

PulseView has it as 'PROFIBUS FDL' in its list of decoders.
'''

from .pd import Decoder
