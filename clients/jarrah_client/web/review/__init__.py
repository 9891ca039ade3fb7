"""Review: drafts and their versions, what two trees or versions differ in, search in contents."""
