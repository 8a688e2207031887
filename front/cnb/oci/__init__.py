"""Images as other tools have them: OCI image layouts and root folders, read into a store and written from one."""
