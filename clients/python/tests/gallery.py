"""The pictures that the tests draw twice. Run with a folder, it writes those that docs/pictures keeps."""
import sys
from typing import Callable, Dict

import urszovely as u

TILE = "S[(8,2,4,2):(4@laneid,1@warpid,1@laneid,1)]+R[2:4@warpid]+5@warpid"
CLASH = TILE.replace("R[2:4", "R[2:1")
Draw = Callable[[], u.Picture]

# Six that README shows.
KEPT: Dict[str, Draw] = {
    "approved": lambda: u.judge(TILE, shape=(8, 16), laneid=32, warpid=11, m=2).svg(),
    "clash": lambda: u.judge(CLASH, shape=(8, 16), laneid=32, warpid=11, m=2).svg(),
    "outside": lambda: u.judge(TILE, shape=(8, 16), laneid=32, warpid=10, m=2).svg(),
    "banks": lambda: u.judge("S[(8,64):(64,1)]", swizzle=("128B", 16), m=512).bank_svg(16),
    "fragment": lambda: u.Fragment(5).svg(),
    "mask": lambda: u.Mask(32, 32, 0x0203028301020100).svg(),
}

FURTHER: Dict[str, Draw] = {
    "without a shape": lambda: u.judge(TILE, laneid=32, warpid=11, m=2).svg(),
    "scale factors": lambda: u.judge("S[(32,4):(1@TLane,1@TCol)]+R[4:32@TLane]", TLane=128, TCol=4).svg(),
    "reused scale factors": lambda: u.judge("S[(2,32,4):(0@TCol*,1@TLane,1@TCol)]+R[4:32@TLane]", TLane=128, TCol=4).svg(),
    "one iter marked, and a clash": lambda: u.judge("S[(2,4,4):(0@m*,2,1)]", m=16).svg(),
    "figure 189": lambda: u.judge("S[(2,8,4,4):(64,8,4,1)]", swizzle=(2, 1, 3), m=256).svg(),
    "sixty-five": lambda: u.judge("S[(65):(1)]", swizzle=(3, 3, 3), m=72).svg(),
    "backwards": lambda: u.judge("S[(4):(-1)]+3@m", m=4).svg(),
    "below zero": lambda: u.judge("S[(4):(-1)]+2@m", m=4).svg(),
    "far outside": lambda: u.judge("S[(4,2):(1,65535@pid)]", m=4).svg(),
    "three in a cell": lambda: u.judge("S[(3,4):(0,1)]", m=4).svg(),
    "one cell": lambda: u.judge("S[(1):(1)]").svg(),
    "P and F": lambda: u.judge("S[(8,4):(1@P,1@F)]", P=8, F=4).svg(),
    "pid and warpid": lambda: u.judge("S[(6,4):(1@pid,1@warpid)]", pid=6, warpid=5).svg(),
    "lanes not in fours": lambda: u.judge("S[(6,3):(1@laneid,1)]", laneid=6, m=3).svg(),
    "the 224-column accumulator": lambda: u.judge("S[(2,128,112):(112@TCol,1@TLane,1@TCol)]", TLane=128, TCol=224).svg(),
    "a large clash": lambda: u.judge("S[(2,32,56):(50@TCol,1@TLane,1@TCol)]", TLane=32, TCol=112).svg(),
    "large and outside": lambda: u.judge("S[(2,32,56):(56@TCol,1@TLane,1@TCol)]", TLane=30, TCol=112).svg(),
    "the largest": lambda: u.judge("S[(256,256):(256,1)]", m=65536).svg(),
    "many panels": lambda: u.judge("S[(64,32,4):(1@pid,1@laneid,1)]", pid=64, laneid=32, m=4).svg(),
    "a prime length": lambda: u.judge("S[(3000):(1)]+1@m", m=3001).svg(),
    "many short rows": lambda: u.judge("S[(4096,4):(2@pid,1)]", pid=8192, m=4).svg(),
    "two long axes": lambda: u.judge("S[(5,3000):(1@pid,1)]", pid=5, m=3001).svg(),
    "no such swizzle": lambda: u.judge("S[(8):(1)]", swizzle=(9, 1, 3), m=8).svg(),
    "idle copies": lambda: u.judge("S[(8):(1)]+R[2:0]", m=8).svg(),
    "banks without a swizzle": lambda: u.judge("S[(8,64):(64,1)]", m=512).bank_svg(16),
    "banks of bytes": lambda: u.judge("S[(16,32):(32,1)]", swizzle=("32B", 8), m=512).bank_svg(8, column=3),
    "fragment B": lambda: u.Fragment(2).svg(),
    "fragment C .f64": lambda: u.Fragment(8).svg(),
    "a mask of 256": lambda: u.Mask(64, 256, 0x0203028301020100).svg(),
    "a clear mask": lambda: u.Mask(128, 8, 0).svg(),
}

# Further kinds of fragments, where the archive and the second program have them.
KINDS: Dict[str, Draw] = {
    "m16n8k16 A": lambda: u.Mma(12).svg(),
    "ldmatrix": lambda: u.Mma(45).svg(),
    "wgmma A": lambda: u.Mma(37).svg(),
    "wgmma m64n256 D": lambda: u.Mma(1256).svg(),
}

ALL: Dict[str, Draw] = {**KEPT, **FURTHER}

if __name__ == "__main__":
    for name, draw in KEPT.items():
        draw().written(f"{sys.argv[1]}/{name}.svg")
