"""Self-tests of the model: python3 tests/model/test_model.py [SCALE [SEED]]

SCALE (1 by default) multiplies the number of random cases. The last line printed is
'N passed, M failed', and the exit status is 0 only when nothing failed.
"""

import sys
import time

from examples import EXAMPLES
from exhaustive import EXHAUSTIVE
from generate import seeded
from kef_properties import KEF_PROPERTIES
from operator_examples import OPERATOR_EXAMPLES
from padded_examples import PADDED_EXAMPLES
from padded_properties import PADDED_PROPERTIES
from properties import PROPERTIES
from redo_examples import REDO_EXAMPLES
from redo_properties import REDO_PROPERTIES
from sweep_examples import SWEEP_EXAMPLES
from sweep_properties import SWEEP_PROPERTIES
from takedown_examples import TAKEDOWN_EXAMPLES
from takedown_properties import TAKEDOWN_PROPERTIES
from tally import Tally
from valence_examples import VALENCE_EXAMPLES
from valence_properties import VALENCE_PROPERTIES
from wavefront_examples import WAVEFRONT_EXAMPLES
from wavefront_properties import WAVEFRONT_PROPERTIES


def main(arguments):
    scale = float(arguments[0]) if arguments else 1.0
    seed = int(arguments[1]) if len(arguments) > 1 else 1
    tally = Tally()
    for example in (EXAMPLES + OPERATOR_EXAMPLES + PADDED_EXAMPLES + TAKEDOWN_EXAMPLES + WAVEFRONT_EXAMPLES
                    + REDO_EXAMPLES + VALENCE_EXAMPLES + SWEEP_EXAMPLES):
        example(tally)
    print(f"examples: {tally.passed} checks")
    properties = (PROPERTIES + EXHAUSTIVE + TAKEDOWN_PROPERTIES + PADDED_PROPERTIES + WAVEFRONT_PROPERTIES
                  + KEF_PROPERTIES + REDO_PROPERTIES + VALENCE_PROPERTIES + SWEEP_PROPERTIES)
    for number, prop in enumerate(properties):
        before, began = tally.passed, time.process_time()
        # A seed of its own, so that one property's cases do not hang on another's.
        prop(tally, seeded(1000 * seed + number), scale)
        print(f"{prop.__name__}: {tally.passed - before} checks, {time.process_time() - began:.1f} s")
    print(f"{tally.passed} passed, {tally.failed} failed")
    return 0 if tally.failed == 0 and tally.passed > 0 else 1


if __name__ == "__main__":
    sys.exit(main(sys.argv[1:]))
