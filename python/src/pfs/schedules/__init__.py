"""Schedules, calendars and pictures."""
