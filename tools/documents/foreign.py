"""Names that pages have from other programs: no source of this repository says anything of them."""

ASTERISK = """asterisk chan_iax2 iax iax2 conf extensions auth disallow encryption jitterbuffer maxauthreq requirecalltoken
trunkfreq trunktimestamps reload _2XXX UNREACHABLE guest bindaddr bindport username qualify transfer context friend permit deny
register
PJSIP mailbox calltokenoptional codecpriority"""
MODEMS = "iaxmodem refresh peername cidname cidnumber codec ttyIAX1 ttyIAX2 ATA ATH ATDT2001 FCLASS RING BUSY raw echo libiax2"
SYSTEM = """LimitFSIZE copytruncate fdatasync journalctl systemctl keepalived lunp ltnp sysctl core rmem_max tcpdump
tshark traceroute ulimit useradd logrotate mandoc nft udp_segment UDP_SEGMENT recvmmsg sendmmsg SO_REUSEPORT epoll hosts
iproute udev apt-get sqlite3 awk cat less sum targets Connection Transfer-Encoding
POST DELETE GET T10"""
# The toolchain's commands, tactics, files and words.
TOOLCHAIN = """rattle rattle-kit rattle-kit-13f dac8208d650f15bf doc antt oantt Lts Layout subst declared_send allow_hyphen_values
grind try_lock"""
# Names that are wrong on purpose: samples of faults that `check` prints, and what pages put in place of a name.
SAMPLES = "allow PREFIX hex _clock harbor secert por u0074 xfc KEY NAME FILE CRATE BODY PATH COUNT sql bill"
FOREIGN = frozenset(" ".join((ASTERISK, MODEMS, SYSTEM, TOOLCHAIN, SAMPLES)).split())
# Options of `curl`, `useradd`, `systemctl`, `sysctl`, `rt` and Python that pages name.
OPTIONS = frozenset(
    "unix-socket system no-create-home shell now only start allow-holes test short-goals incremental jobs minutes text".split()
)
