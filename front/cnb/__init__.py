"""The platform `cnb`: it keeps the folders of builds, calls `lifecycle`, and says what happened."""
