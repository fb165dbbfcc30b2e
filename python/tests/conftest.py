"""No example has to end in a given time, since a machine may be busy, and none is kept."""

from hypothesis import settings

settings.register_profile("quiet", deadline=None, database=None)
settings.load_profile("quiet")
