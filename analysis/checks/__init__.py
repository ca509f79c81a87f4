"""What analysis/check looks at, a module for each part."""
