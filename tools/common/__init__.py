"""What the tools share. Nothing here is part of any proof."""
