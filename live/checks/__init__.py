"""What live/check looks at, part by part."""
