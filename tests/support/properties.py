"""Settings of Hypothesis that several modules of tests share."""

from __future__ import annotations

from hypothesis import HealthCheck, settings

# Files are long draws, and slow on a busy machine: neither is an error of a test.
SUPPRESSED = [HealthCheck.too_slow, HealthCheck.data_too_large]


def examples(share: int = 1) -> settings:
    """Settings with the profile's count of examples divided by `share`."""
    return settings(max_examples=settings.default.max_examples // share, suppress_health_check=SUPPRESSED)
