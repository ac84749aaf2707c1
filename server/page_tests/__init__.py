"""The page in headless Chromium, by keyboard alone, wide and narrow, light and dark: `server/pictures`."""
