"""Proofs of knowledge of a preimage under a group homomorphism (U. Maurer, 2015), on numbers of at most 32 bits.

The package is for lectures and scripts. Numbers of 32 bits protect nothing: do not use a key that matters. The proved
library computes all results, and the package calls it as a shared library.

A round in which Peggy shows that she knows x = 7 with 2^x = 13 modulo 23, and Vic accepts:

    >>> from dimkhoros import Instance, Pattern, Patterns, Prover, Verifier
    >>> numbers = {"modulus": 23, "order": 11, "challenges": 11}
    >>> sheet = Instance.from_pattern(Patterns.shipped(), Pattern.SCHNORR, **numbers, values=[2], statement=[13])
    >>> peggy, commitment = Prover().commit(sheet, [5])             # the nonce: draw it with the module secrets
    >>> vic = Verifier().take_commitment(sheet, commitment)
    >>> vic = vic.take_challenge(sheet, 3)                          # the challenge: draw it too
    >>> peggy, response = peggy.respond(sheet, 3, [7])
    >>> vic, verdict = vic.take_response(sheet, response)
    >>> print(commitment, response, verdict)
    (9,) (4,) accepted

What there is:

    sheets              Instance, Values, Header, EXPONENT, ROOT, Forms
    patterns            Patterns, Pattern, Layout
    rounds              Round, Verdict; Instance has judge, simulate and extract
    sessions            Prover, ProverPhase, Found, Verifier, VerifierPhase
    the OR proof        Pair, OrProver, OrRound, OrVerdict, OrWitness, Side
    teams               Team
    used nonces         Watch, Heard, Reuse
    ledgers             Ledger, Base, Entries, Line, LineKind, Checked
    files of rounds     RoundFile, RoundWriter, mark, reason, game
    errors              Refusal, SessionSpent, NotStored, Damaged
    versions            version, __version__

A step of a session, such as commit, spends the object and returns the session to go on with. A call that is refused
raises Refusal and changes nothing. A number or a list of the wrong form is a ValueError or a TypeError.

help(dimkhoros.Prover) shows one class. The package's README.md has a lecture, a table of all calls, and the rules on
sessions."""

from ._library import VERSION as __version__
from ._library import version
from ._sizes import EXPONENT, ROOT
from ._stored import Damaged
from .forms import Forms
from .instance import Header, Instance, Values
from .ledger import Base, Checked, Entries, Ledger, Line, LineKind
from .marker import game, mark, reason
from .or_prover import OrProver
from .pair import Pair
from .patterns import Layout, Pattern, Patterns
from .prover import Found, Prover, ProverPhase
from .refusals import Refusal
from .round_file import RoundFile, RoundWriter
from .rounds import OrRound, OrVerdict, OrWitness, Round, Side, Verdict
from .session import NotStored, SessionSpent
from .team import Team
from .verifier import Verifier, VerifierPhase
from .watch import Heard, Reuse, Watch

__all__ = [
    "EXPONENT",
    "ROOT",
    "Base",
    "Checked",
    "Damaged",
    "Entries",
    "Forms",
    "Found",
    "Header",
    "Heard",
    "Instance",
    "Layout",
    "Ledger",
    "Line",
    "LineKind",
    "NotStored",
    "OrProver",
    "OrRound",
    "OrVerdict",
    "OrWitness",
    "Pair",
    "Pattern",
    "Patterns",
    "Prover",
    "ProverPhase",
    "Refusal",
    "Reuse",
    "Round",
    "RoundFile",
    "RoundWriter",
    "SessionSpent",
    "Side",
    "Team",
    "Values",
    "Verdict",
    "Verifier",
    "VerifierPhase",
    "Watch",
    "__version__",
    "game",
    "mark",
    "reason",
    "version",
]
