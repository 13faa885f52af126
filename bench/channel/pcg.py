# PCG32 (XSH RR 64/32) and the noise, by its description alone.
from decimal import Decimal,getcontext
from statistics import NormalDist
getcontext().prec=40
ONE=2**30
M64=(1<<64)-1
MUL=6364136223846793005
def xsh(s):
    x=(((s>>18)^s)>>27)&0xffffffff
    r=s>>59
    return ((x>>r)|(x<<((32-r)&31)))&0xffffffff
def seed_bytes(seed,n):
    # rand_core's seed_from_u64: a PCG32 with its own increment fills the seed
    INC=11634580027462260723
    out=b''
    s=seed
    for _ in range(n//4):
        s=(s*MUL+INC)&M64
        out+=xsh(s).to_bytes(4,'little')
    return out
class Pcg32:
    def __init__(self,seed):
        b=seed_bytes(seed,16)
        state=int.from_bytes(b[:8],'little'); self.inc=int.from_bytes(b[8:],'little')|1
        self.s=(state+self.inc)&M64
        self.s=(self.s*MUL+self.inc)&M64
    def next(self):
        old=self.s
        self.s=(self.s*MUL+self.inc)&M64
        return xsh(old)
class Ref(Pcg32):
    def __init__(self,state,stream):
        self.inc=((stream<<1)|1)&M64
        self.s=(state+self.inc)&M64
        self.s=(self.s*MUL+self.inc)&M64
assert Ref(42,54).next()==0xa15c02b7
def trunc(a,b):
    q=abs(a)//b
    return q if a>=0 else -q
class Noise:
    def __init__(self,seed,level): self.g=Pcg32(seed); self.level=level
    def one(self,x):
        d=sum(self.g.next().to_bytes(4,'big'))+sum(self.g.next().to_bytes(4,'big'))
        return max(-32768,min(32767,x+trunc((d-1020)*self.level,256)))
    def add(self,i,q): 
        a=self.one(i); b=self.one(q); return a,b
# The entries of all bytes: the quantiles of a normal distribution at (k + 128.5) / 256 times 1024, but for the last two sizes. The other
# half has the same sizes less than 0. Then the variance of the sum of eight.
SIZES=[round(1024*NormalDist().inv_cdf((k+128.5)/256)) for k in range(126)]+[2345,3190]
ENTRIES=SIZES+[-it for it in SIZES]
VARIANCE=Decimal(8*sum(it*it for it in ENTRIES))/256
class Gaussian(Noise):
    # by hundredths of a dB: at -10 dB a standard deviation of 700 sqrt(10), each hundredth 10**(-1/2000) times that
    def __init__(self,seed,hundredths):
        self.g=Pcg32(seed)
        a=round(ONE*700*Decimal(10).sqrt()/VARIANCE.sqrt())
        step=round(ONE*Decimal(10)**(Decimal(-1)/2000))
        for _ in range(hundredths+1000): a=(a*step+ONE//2)//ONE
        self.a=a
    def one(self,x):
        d=sum(ENTRIES[byte] for _ in range(2) for byte in self.g.next().to_bytes(4,'little'))
        size=(abs(d)*self.a+ONE//2)//ONE
        return max(-32768,min(32767,x+(size if d>0 else -size)))
if __name__=='__main__':
    for seed,level in [(1,256),(0,255),(1<<40,300),(7,65535),(2**64-1,1)]:
        n=Noise(seed,level)
        print(seed,level,[n.add(700,-700) for _ in range(4)])
        n=Noise(seed,level)
        print('   at 0',[n.add(0,0) for _ in range(4)])
    for seed,hundredths in [(1,1000),(0,-1000),(1<<40,4000),(7,622),(2**64-1,-235)]:
        n=Gaussian(seed,hundredths)
        print(seed,hundredths,n.a,[n.add(700,-700) for _ in range(4)])
    # how far the amplitude is from the right one, at most
    print(max(abs(Gaussian(0,h).a/(ONE*700*10**(-h/2000)/float(VARIANCE)**.5)-1) for h in range(-1000,4001)))
    for seed in range(1,4):
        n=Gaussian(seed,-1000); print(seed,[n.add(32767,-32768) for _ in range(4)])
    # clamps
    for seed in range(1,6):
        n=Noise(seed,65535); print(seed,[n.add(32767,-32768) for _ in range(4)])
    n=Noise(1,256); 
    data=b''.join(a.to_bytes(2,'big',signed=True)+b.to_bytes(2,'big',signed=True) for a,b in [n.add(k*3-150,150-k*5) for k in range(100)])
    import zlib,hashlib
    print(len(data),zlib.crc32(data),data[:8].hex(),data[-8:].hex(), sum(data))
    import statistics
    n=Noise(3,256); xs=[x for _ in range(20000) for x in n.add(0,0)]
    print(statistics.mean(xs),statistics.pstdev(xs))
