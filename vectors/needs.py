"""Gets what a comparison with another program needs: Debian's packages, by name. They are installed where they are missing and root runs the comparison; otherwise it ends and says what to install."""
import os
import shutil
import subprocess
import sys

DEBIAN_PYTHON = '/usr/bin/python3'
REGISTRY = '/usr/share/cargo/registry'


def install(packages):
    if not packages:
        return
    if os.geteuid() != 0 or not shutil.which('apt-get'):
        sys.exit('needs Debian\'s packages: apt-get install -y ' + ' '.join(packages))
    print('installing ' + ' '.join(packages), file=sys.stderr, flush=True)
    quiet = dict(stdout=subprocess.DEVNULL, env=dict(os.environ, DEBIAN_FRONTEND='noninteractive'))
    if subprocess.run(['apt-get', 'install', '-y'] + packages, **quiet).returncode != 0:
        subprocess.run(['apt-get', 'update'], check=True, **quiet)
        subprocess.run(['apt-get', 'install', '-y'] + packages, check=True, **quiet)


def rust():
    """cargo and rustc, and the crates that npyz needs."""
    crates = os.listdir(REGISTRY) if os.path.isdir(REGISTRY) else []
    wanted = {'librust-byteorder-dev': 'byteorder-1', 'librust-num-bigint-dev': 'num-bigint-0.4'}
    install([name for name in ('cargo', 'rustc') if not shutil.which(name)] + [name for name, crate in wanted.items() if not any(one.startswith(crate) for one in crates)])


def numpy(version='1.24.2'):
    """NumPy of that version. Debian's package serves Debian's own Python, so the script begins again under that one where this one has no NumPy of that version."""
    try:
        import numpy
        found = numpy.__version__
    except ImportError:
        found = 'none'
    if found == version:
        return numpy
    if os.path.realpath(sys.executable) == os.path.realpath(DEBIAN_PYTHON) and found != 'none':
        sys.exit(f'needs NumPy {version}, and {DEBIAN_PYTHON} has {found}')
    if not os.path.exists(DEBIAN_PYTHON) or subprocess.run([DEBIAN_PYTHON, '-c', 'import numpy'], stderr=subprocess.DEVNULL).returncode != 0:
        install(['python3-numpy'])
    os.execv(DEBIAN_PYTHON, [DEBIAN_PYTHON] + sys.argv)
