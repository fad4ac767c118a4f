"""Audits of published orders."""
