"""A site of Django without a project of its own, for the scripts of this folder (Debian: python3-django): its caches, as an entry of CACHES
describes them, and its sessions. The table of sessions is in memory.
"""

import importlib

import django
from django.conf import settings

settings.configure(
    SECRET_KEY="of no use",
    INSTALLED_APPS=["django.contrib.sessions"],
    DATABASES={"default": {"ENGINE": "django.db.backends.sqlite3", "NAME": ":memory:"}},
    CACHES={},
)
django.setup()

from django.contrib.sessions.models import Session
from django.core.cache import CacheHandler, caches
from django.db import connection

with connection.schema_editor() as editor:
    editor.create_model(Session)


def cache_of(backend, location, options, **others):
    """The cache of an entry of CACHES: a class of Django's, the address that it connects to, its OPTIONS and other settings."""
    path = f"django.core.cache.backends.memcached.{backend}"
    return CacheHandler({"default": {"BACKEND": path, "LOCATION": location, "OPTIONS": options, **others}})["default"]


def session_of(engine, cache, key=None):
    """A session of an engine, `cache` or `cached_db`, which is kept in a cache: a new one, or that of a key."""
    caches["default"] = cache
    return importlib.import_module(f"django.contrib.sessions.backends.{engine}").SessionStore(key)
