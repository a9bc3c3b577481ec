"""Builds a C library for hardened programs from Debian's sources: for tools/sysroot.py."""
