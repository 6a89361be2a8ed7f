"""Tile layouts for GPU matrix kernels, judged by a proved library, and pictures of what it says.

>>> import urszovely as u
>>> v = u.judge("S[(8,2,4,2):(4@laneid,1@warpid,1@laneid,1)]+R[2:4@warpid]+5@warpid", laneid=32, warpid=11, m=2)
>>> print(v)
approved: 128 elements in 256 of 704 cells, 2 copies of each
>>> v.owner_of(laneid=3, warpid=6, m=1)
15

Every answer comes from the proved archive. The package names, explains and draws; what it goes through again for an explanation is in
`urszovely.explain`. Start Python by ``./python``, which builds what is missing.
"""
import sys

if sys.version_info < (3, 9):
    raise ImportError("urszovely needs Python 3.9 or later")

from .addresses import LineAndBank, bank, mode, swizzle
from .book import Page, block, listed, page
from .layout import Card, Cell, Iter, Verdict, judge
from .masks import Fields, Mask, descriptor, fields
from .names import AXES, KINDS, MAJORS, MMA_KINDS, MODES, REFUSALS, Refused, Swizzle
from .plans import Carried, carry, plan
from .shared import Canonical, canonical
from .svg import Picture
from .warp import EMPTY, Fragment, Holder, Holding, Mma, MmaHolder, MmaPlace, Place, Register, collect, collect_f64, deal, deal_f64, double, single

__all__ = [
    "AXES", "KINDS", "MAJORS", "MMA_KINDS", "MODES", "REFUSALS", "EMPTY",
    "Canonical", "Card", "Carried", "Cell", "Fields", "Fragment", "Holder", "Holding", "Iter", "LineAndBank", "Mask", "Mma", "MmaHolder", "MmaPlace", "Page", "Picture", "Place",
    "Refused", "Register", "Swizzle", "Verdict",
    "bank", "block", "canonical", "carry", "collect", "collect_f64", "deal", "deal_f64", "descriptor", "double", "fields", "judge", "listed", "mode",
    "page", "plan", "single", "swizzle",
]
