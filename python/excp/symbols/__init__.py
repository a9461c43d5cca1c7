"""Jobs in symbols: assembled to plain scripts, and plain scripts listed in symbols.

    done = assemble(job)            # Assembled(script, findings, areas)
    done.place(area, address)       # the word of the job that has set this byte
    listing.listing(done.script)    # of a plain script that a run accepts
"""

from .assembled import Assembled
from .assembly import assemble
from .line_forms import has_symbols

__all__ = ["Assembled", "assemble", "has_symbols"]
