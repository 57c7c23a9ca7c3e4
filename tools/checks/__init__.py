"""Checks that tools/ready runs over documents and sources, without a proof."""
