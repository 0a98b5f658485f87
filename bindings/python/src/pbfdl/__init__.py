"""PROFIBUS data link layer (FDL, IEC 61158 Type 3): telegrams, a station at a line, a simulated bus, and a monitor.

The functions beneath come from proved code (`libpbfdl`). Times are whole bit times, addresses 0 to 126, and 127 is all stations.

    Bus, Tap                     a simulated bus with stations at its taps
    Station, Indication          one station at a wire of your own, and a request that it executed
    Params                       the bus parameters
    Service, Outcome, Phase      what is asked, what came of it, and what a station does
    Trace, Entry, Heard, Audit   what was on a bus, and how it is judged
    Telegram, Kind, Receiver     octets and back
    Monitor, Traffic             reads a capture as it comes, and judges it
    Fault                        why a call is refused; pbfdl.faults has a class for each reason, as pbfdl.QueueFull

A call that is refused raises a `Fault` with the name of the reason, and changes nothing. `help(pbfdl.Bus)` has each method.
"""

# Names are exported by "as". Without __all__ help() shows the text above, not every class.
from . import faults as faults
from .buses import Bus as Bus
from .buses import Tap as Tap
from .faults import *  # noqa: F401,F403
from .faults import Fault as Fault
from .monitors import AlarmClass as AlarmClass
from .monitors import Form as Form
from .monitors import Monitor as Monitor
from .monitors import Role as Role
from .monitors import Spread as Spread
from .monitors import StationCounts as StationCounts
from .monitors import Summary as Summary
from .monitors import Traffic as Traffic
from .params import Params as Params
from .stations import ALL_STATIONS as ALL_STATIONS
from .stations import LAST_ADDRESS as LAST_ADDRESS
from .stations import LAST_MOMENT as LAST_MOMENT
from .stations import Indication as Indication
from .stations import Outcome as Outcome
from .stations import OutcomeKind as OutcomeKind
from .stations import Phase as Phase
from .stations import Service as Service
from .stations import Station as Station
from .telegrams import DAMAGED as DAMAGED
from .telegrams import Kind as Kind
from .telegrams import Receiver as Receiver
from .telegrams import Telegram as Telegram
from .traces import Audit as Audit
from .traces import Entry as Entry
from .traces import Heard as Heard
from .traces import Trace as Trace

__version__ = "0.1.0"
