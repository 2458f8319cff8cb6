"""`python3 -m reference WORDS..` answers as `reference/mpiwait WORDS..` does."""

import sys

from .command_line import end

end(sys.argv[1:])
