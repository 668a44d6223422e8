import os
import sys

sys.dont_write_bytecode = True
# tests/python.sh sets this to test an installed package.
if "PALMHEAP_INSTALLED" not in os.environ:
    sys.path.insert(0, os.path.dirname(os.path.dirname(os.path.realpath(__file__))))

try:
    from hypothesis import HealthCheck, settings
except ImportError:
    pass
else:
    settings.register_profile("palmheap", deadline=None, database=None, suppress_health_check=[HealthCheck.too_slow])
    settings.load_profile("palmheap")
