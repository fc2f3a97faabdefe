"""Scripts as utilities write them for OpenDSS, translated into the profile that feeder reads."""
