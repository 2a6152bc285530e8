"""What workers of this machine need is imported with this: by the process of which they are begun, and not by each of them."""

import sys

# (Dask asks for its version alone, where it is, and to import it takes as long as all the others)
sys.modules.setdefault("pandas", None)  # type: ignore[arg-type]

import distributed  # noqa: E402

from . import parts  # noqa: E402

__all__ = ["distributed", "parts"]
